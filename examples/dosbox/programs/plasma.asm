; Mode 13: colours of its own, and pixels by stosb.
%include "program.inc"

start:  mode    13h
        outb    3C8h, 0
        inc     dx
        xor     cx, cx
.colour:
        mov     al, cl
        shr     al, 2
        out     dx, al
        mov     al, cl
        and     al, 63
        out     dx, al
        mov     al, cl
        not     al
        shr     al, 2
        out     dx, al
        inc     cl
        jnz     .colour
        display 0A000h
        xor     bp, bp
frame:  xor     di, di
        xor     bx, bx                  ; y
.row:   xor     cx, cx                  ; x
.pixel: mov     ax, cx
        add     ax, bp
        mov     si, bx
        add     si, bp
        xor     ax, si
        add     al, cl
        stosb
        inc     cx
        cmp     cx, 320
        jb      .pixel
        inc     bx
        cmp     bx, 200
        jb      .row
        inc     bp
        rounds  3, frame
