# Entry of a program for the bare machine, and the three calls. The stack is part of the program,
# since nothing is in the registers at the entry.
	.text
	.globl _start
_start:
	.option push
	.option norelax
	la gp, __global_pointer$
	.option pop
	la sp, stack_end
	call main
	li a7, 93
	ecall

# unsigned read_bytes(void *to, unsigned count): how many bytes of the input came
	.globl read_bytes
read_bytes:
	mv a2, a1
	mv a1, a0
	li a0, 0
	li a7, 63
	ecall
	ret

# unsigned write_bytes(const void *from, unsigned count): how many bytes of the output went
	.globl write_bytes
write_bytes:
	mv a2, a1
	mv a1, a0
	li a0, 1
	li a7, 64
	ecall
	ret

# void leave(int status)
	.globl leave
leave:
	li a7, 93
	ecall

	.bss
	.balign 16
	.space 65536
stack_end:
