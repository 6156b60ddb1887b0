; A boot sector in four segments. Its output goes to the first serial port; then it ends the emulator.
; It has a fixup of each common kind: a base, an offset, a self-relative call, a far pointer, and a start.
;
;       nasm -f obj boot.asm -o boot.omf

        cpu     8086

        segment code align=1 class=CODE
..start:
        cli
        xor     ax, ax
        mov     ss, ax
        mov     sp, 0x7C00
        mov     ax, text                ; the base of a segment
        mov     ds, ax
        mov     si, hello               ; an offset in it
        call    print                   ; self-relative, into another segment
        mov     si, [there]             ; an offset that the data keep
        call    library:print_far       ; a far pointer
        mov     dx, 0xF4
        out     dx, al

        segment text align=1 class=DATA
hello:  db      'relocated', 13, 10, 0
end:    db      'and done', 13, 10, 0
there:  dw      end

        segment library align=1 class=CODE
put:    mov     dx, 0x3F8
        out     dx, al
print:  lodsb
        or      al, al
        jnz     put
        ret
print_far:
        call    print
        retf

        segment mark align=1 class=MARK
        db      0x55, 0xAA
