// Entry of the boot core and of the others on QEMU's `virt` board. Each has a stack of its own, and calls C.
	.section .text.start, "ax"
	.global _start
_start:
	adrp	x1, stacks
	add	x1, x1, :lo12:stacks
	add	sp, x1, #4096
	bl	boot_core
1:	wfi
	b	1b

// Where PSCI's CPU_ON begins a core; x0 is the core's number.
	.global secondary_start
secondary_start:
	adrp	x1, stacks
	add	x1, x1, :lo12:stacks
	add	x2, x0, #1
	lsl	x2, x2, #12
	add	sp, x1, x2
	bl	secondary_core
1:	wfi
	b	1b

	.bss
	.balign	4096
stacks:
	.skip	4096 * 512
