; A ROM of 64 KB at F0000H for an 8086: it writes a line to the serial port 3F8H, and halts.
bits 16

segment code align=16 class=code
start:
        cli
        mov ax, seg said
        mov ds, ax
        mov si, said
        mov dx, 3F8h
next:
        lodsb
        test al, al
        jz halt
        out dx, al
        jmp next
halt:
        hlt
        jmp halt

segment text align=16 class=data
said:   db "from ROM", 13, 10, 0

; The processor begins at FFFF0H.
segment reset align=16 class=code
        jmp code:start
        db "11/22/26"
        times 16 - ($ - $$) db 0FFh
