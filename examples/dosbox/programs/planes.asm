; Mode 12: all write modes, rotation, functions, set/reset, the bit mask, and both read modes.
%include "program.inc"

start:  mode    12h
        display 0A000h
        ; Write mode 0 with the map mask: sixteen bars.
        xor     bx, bx
.bar:   mov     dx, 3C4h
        mov     ah, bl
        mov     al, 2
        out     dx, ax
        imul    di, bx, 5
        mov     si, 100
.line:  mov     cx, 5
        mov     al, 0FFh
        rep stosb
        add     di, 75
        dec     si
        jnz     .line
        inc     bx
        cmp     bx, 16
        jb      .bar
        outw    3C4h, 0F02h
        ; Set/reset and the bit mask: lines of one dot in eight.
        outw    3CEh, 0F01h
        xor     bx, bx
.set:   mov     dx, 3CEh
        mov     ah, bl
        and     ah, 15
        mov     al, 0
        out     dx, ax
        mov     cl, bl
        and     cl, 7
        mov     ah, 80h
        shr     ah, cl
        mov     al, 8
        out     dx, ax
        imul    di, bx, 80
        add     di, 110 * 80
        mov     cx, 80
.dots:  mov     al, [es:di]
        stosb
        loop    .dots
        inc     bx
        cmp     bx, 60
        jb      .set
        outw    3CEh, 0001h
        outw    3CEh, 0FF08h
        ; Write mode 2: the byte is a colour.
        outw    3CEh, 0205h
        mov     di, 180 * 80
        mov     cx, 80 * 40
.colour:
        mov     al, [es:di]
        mov     al, cl
        stosb
        loop    .colour
        ; Write mode 1: the latches copy sixty lines.
        outw    3CEh, 0105h
        push    ds
        push    es
        pop     ds
        mov     si, 110 * 80
        mov     di, 230 * 80
        mov     cx, 60 * 80
        rep movsb
        pop     ds
        ; Write mode 3, with each function and a rotation by two.
        outw    3CEh, 0305h
        xor     bx, bx
.three: mov     dx, 3CEh
        mov     ah, bl
        shl     ah, 3
        or      ah, 2
        mov     al, 3
        out     dx, ax
        mov     ah, bl
        add     ah, 9
        mov     al, 0
        out     dx, ax
        outw    3CEh, 7E08h
        imul    di, bx, 20 * 80
        add     di, 300 * 80
        mov     cx, 80 * 16
.under: mov     al, [es:di]
        mov     al, cl
        stosb
        loop    .under
        inc     bx
        cmp     bx, 4
        jb      .three
        ; Write mode 0 over the bars, with each function and a rotation by three.
        outw    3CEh, 0005h
        outw    3CEh, 0FF08h
        xor     bx, bx
.function:
        mov     dx, 3CEh
        mov     ah, bl
        shl     ah, 3
        or      ah, 3
        mov     al, 3
        out     dx, ax
        imul    di, bx, 12 * 80
        add     di, 30 * 80
        mov     cx, 80 * 8
.over:  mov     al, [es:di]
        mov     al, 0E5h
        stosb
        loop    .over
        inc     bx
        cmp     bx, 4
        jb      .function
        outw    3CEh, 0003h
        ; Read mode 1: where the bars have colour 5, all planes are set.
        outw    3CEh, 0502h
        outw    3CEh, 0F07h
        outw    3CEh, 0805h
        mov     di, 400 * 80
        mov     si, 5 * 80
        mov     cx, 80 * 60
.compare:
        mov     al, [es:si]
        mov     [es:di], al
        inc     si
        inc     di
        loop    .compare
        outw    3CEh, 0005h
        picture
        quit
