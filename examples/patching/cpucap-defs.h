/* A piece of what a kernel's build writes to include/generated/asm/cpucap-defs.h; these numbers are made up. */
#define ARM64_ALWAYS_SYSTEM                          1
#define ARM64_HAS_LSE_ATOMICS                        35
#define ARM64_HAS_VIRT_HOST_EXTN                     43
#define ARM64_SPECTRE_V4                             62
#define ARM64_WORKAROUND_845719                      83
#define ARM64_NCAPS                                  97
