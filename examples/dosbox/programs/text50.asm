; Text of 80 by 50 cells, all attributes, and a fade of the palette to a half.
%include "program.inc"

start:  mode    3
        mov     ax, 1003h               ; sixteen backgrounds
        xor     bx, bx
        int     10h
        mov     ax, 1112h               ; glyphs of eight lines
        xor     bl, bl
        int     10h
        display 0B800h
        xor     di, di
        xor     cx, cx
.cell:  mov     ax, cx
        mov     bx, cx
        shr     bx, 4
        mov     ah, bl
        stosw
        inc     cx
        cmp     cx, 80 * 50
        jb      .cell
        picture
        outb    3C7h, 0
        mov     dx, 3C9h
        mov     di, colours
        mov     cx, 768
.read:  in      al, dx
        mov     [di], al
        inc     di
        loop    .read
        mov     bl, 32
.fade:  mov     cx, 1
        call    frames
        outb    3C8h, 0
        inc     dx
        mov     si, colours
        mov     cx, 768
.write: lodsb
        mul     bl
        shr     ax, 5
        out     dx, al
        loop    .write
        dec     bl
        cmp     bl, 16
        jae     .fade
        picture
        quit

colours:
        times 768 db 0
