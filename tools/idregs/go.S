// Under U-Boot's `go ADDRESS`: stores the ID registers of the core that runs U-Boot at ADDRESS + 0x800, 17 words of 64 bits in
// the order of registers.h, and returns. `md.q ADDRESS+0x800 0x11` shows them, and dump2text reads what it prints.
	.text
	.global _start
_start:
	adr	x1, _start
	add	x1, x1, #0x800
#define REGISTER(name, op0, op1, crn, crm, op2) mrs x2, s##op0##_##op1##_c##crn##_c##crm##_##op2 ; str x2, [x1], #8
#include "registers.h"
	dsb	sy
	mov	x0, #0
	ret
