/* Where each thread begins: the stack is set to the top of private memory, and main's value ends the thread. */
	.option arch, +zicsr
	.section .text.start, "ax"
	.globl _start
_start:
	lui	sp, %hi(tinsel_memory)
	addi	sp, sp, %lo(tinsel_memory)
	call	main
	csrrw	x0, 0x80b, a0		/* Kill */
