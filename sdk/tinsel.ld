/*
 * A program of the machine. Code begins at address 0 of the code that a tile's threads share. Data begins at address 16 of
 * each thread's private memory, so that no object has the address 0. Loads and stores reach private memory alone, and
 * fetches reach code alone. Both begin at 0: link with --no-check-sections. The stack goes down from tinsel_memory, the
 * bytes of private memory: --defsym=tinsel_memory=N. `mkjob` tests all sizes.
 */
OUTPUT_ARCH(riscv)
ENTRY(_start)
PROVIDE(tinsel_memory = 4096);

MEMORY {
	code (rx) : ORIGIN = 0, LENGTH = 16M
	private (rw) : ORIGIN = 16, LENGTH = 16M
}

PHDRS {
	code PT_LOAD FLAGS(5);
	private PT_LOAD FLAGS(6);
}

SECTIONS {
	.text : {
		KEEP(*(.text.start))
		*(.text .text.*)
	} > code :code =0x13000000	/* gaps are nops */

	.data : {
		*(.rodata .rodata.* .srodata .srodata.*)
		*(.data .data.* .sdata .sdata.*)
	} > private :private

	.bss : {
		*(.sbss .sbss.* .bss .bss.* COMMON)
	} > private :private

	/* Sizes for mkjob; the machine does not have them. */
	.polite (INFO) : { KEEP(*(.polite)) }

	/DISCARD/ : { *(.comment .note .note.* .riscv.attributes .eh_frame) }

	.constructors : { KEEP(*(.init_array .init_array.* .ctors .ctors.*)) } > private :private
	.thread_data : { *(.tdata .tdata.* .tbss .tbss.*) } > private :private
	ASSERT(SIZEOF(.thread_data) == 0, "each thread has a memory of its own: use static data without __thread")
	ASSERT(SIZEOF(.constructors) == 0, "the machine calls no constructors")
}
