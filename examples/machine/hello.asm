; Text in three ways. By DOS, by the video BIOS, and straight into memory. A key ends it.
%include "video.inc"

        mode 3
        mov dx, by_dos
        mov ah, 9
        int 21h

        push ds
        pop es
        mov ax, 1301h           ; a string in one colour, and the cursor goes with it
        mov bx, 001Eh           ; page 0, yellow on blue
        mov cx, by_bios.end - by_bios
        mov dx, 040Ah           ; row 4, column 10
        mov bp, by_bios
        int 10h

        mov ax, 0B800h          ; all characters, each in an attribute of its own
        mov es, ax
        mov di, 160 * 8
        mov ax, 0
.next:  stosw
        add ax, 0101h
        jnc .next

        xor ax, ax
        int 16h
        mov ax, 4C00h
        int 21h

by_dos  db "Written by DOS.", 13, 10, "$"
by_bios db "Written by the video BIOS."
.end:
