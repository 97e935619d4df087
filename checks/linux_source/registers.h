/* In the place of instructions: reads of registers go to the core's array, and writes go nowhere. */
#undef read_sysreg
#undef read_sysreg_s
#undef write_sysreg
#undef write_sysreg_s
#undef sysreg_clear_set
#undef sysreg_clear_set_s
#define read_sysreg_s(r) read_register(r)
#define read_sysreg(r) 0ULL
#define write_sysreg(v, r) ((void)0)
#define write_sysreg_s(v, r) ((void)0)
#define sysreg_clear_set(r, clear, set) ((void)0)
#define sysreg_clear_set_s(r, clear, set) ((void)0)
#undef set_pstate_pan
#undef set_pstate_uao
#undef set_pstate_ssbs
#undef set_pstate_dit
#define set_pstate_pan(x) ((void)0)
#define set_pstate_uao(x) ((void)0)
#define set_pstate_ssbs(x) ((void)0)
#define set_pstate_dit(x) ((void)0)
