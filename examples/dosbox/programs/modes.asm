; Each mode of the video BIOS, with text and dots. Modes 4, 5 and 6 are CGA's.
%include "program.inc"

start:  mov     si, modes
.next:  lodsb
        cmp     al, 0FFh
        je      .end
        push    si
        mov     [now], al
        xor     ah, ah
        int     10h
        mov     si, text
.type:  lodsb
        test    al, al
        jz      .typed
        mov     ah, 0Eh
        mov     bx, 0Dh
        int     10h
        jmp     .type
.typed: mov     al, [now]
        cmp     al, 4
        jb      .cells
        cmp     al, 7
        je      .cells
        xor     cx, cx
.dot:   mov     ah, 0Ch
        mov     al, cl
        shr     al, 2
        mov     bh, 0
        mov     dx, cx
        shr     dx, 1
        add     dx, 40
        int     10h
        inc     cx
        cmp     cx, 150
        jb      .dot
        jmp     .picture
.cells: mov     ah, 1                   ; no cursor, since it blinks
        mov     cx, 2000h
        int     10h
        mov     ax, 9DBh
        mov     bx, 35h
        mov     cx, 10
        int     10h
.picture:
        picture
        pop     si
        jmp     .next
.end:   mode    3
        quit

now:    db      0
modes:  db      0, 1, 2, 3, 4, 7, 5, 0Dh, 6, 0Eh, 0Fh, 10h, 11h, 12h, 13h, 4, 3, 0FFh
text:   db      'A mode of the video BIOS', 0
