# A function of 4 bytes, code after it that no symbol has, and a function without a size.
	.file "gap.c"
	.text
	.type	sized_function, @function
sized_function:
	nop
	nop
	nop
	nop
	.size	sized_function, . - sized_function
	.skip	28, 0x90
	.type	sizeless_function, @function
sizeless_function:
	.skip	32, 0x90
