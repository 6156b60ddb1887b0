# The start of the program, at the front of the memory, and a byte for the serial line. A loader of the Multiboot Specification (version 0.6.96, flag 16:
# the addresses are in the header) loads the whole file there and enters at start, in protected mode with flat segments and without a stack.
        .set MAGIC, 0x1BADB002
        .set FLAGS, 0x10000

        .text
        .globl start
        .globl put
header: .long MAGIC, FLAGS, -(MAGIC + FLAGS)
        .long header                    # where the header is
        .long header                    # where the file begins
        .long 0, 0                      # all of it is loaded, and no more
        .long start

start:  movl $stack_end, %esp
        cld
        call program
        movb $0, %al
        outb %al, $0xF4                 # ends the emulator
end:    hlt
        jmp end

put:    movl 4(%esp), %ecx
        movl $0x3FD, %edx
full:   inb %dx, %al
        testb $0x20, %al
        jz full
        movb %cl, %al
        movl $0x3F8, %edx
        outb %al, %dx
        ret

        .bss
        .align 16
stack:  .skip 65536
stack_end:
