; Second module: sets up a stack, copies the data from the ROM to RAM, writes a text, and stops. With -DMORE the code is eight bytes longer.
        cpu     8086
        global  begin
        extern  say

        segment code class=CODE align=16

begin:  cli
        cld
        xor     ax, ax
        mov     ss, ax
        mov     sp, 7C00h
%ifdef MORE
        times 8 nop
%endif
        mov     ax, stored              ; where the ROM has the data
        mov     ds, ax
        mov     si, from
        mov     ax, data                ; where they are used
        mov     es, ax
        mov     di, first
        mov     cx, last
        sub     cx, di
        rep     movsb
        mov     ds, ax
        mov     word [place], "RA"      ; a ROM would keep what it had
        mov     si, greeting
        call    far say
        mov     dx, 0F4h                ; ends an emulator with such a port
        mov     al, 10h
        out     dx, al
stop:   hlt
        jmp     stop

        segment stored class=STORED align=16

from:                                   ; an empty segment, after which the data are stored

        segment data class=DATA align=16

first:
greeting:
        db      "from "
place:  db      "ROM, three modules", 13, 10, 0

        segment end class=END align=1

last:
