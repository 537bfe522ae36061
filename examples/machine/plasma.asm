; Plasma. Mode 13: each dot is the sum of waves across and down, and the colours turn.
%include "video.inc"

        mode 13h
        call make_wave
        mov ax, 0A000h
        mov es, ax
        cld

frame:  retrace
        inc byte [time]
        call turn_colours
        call draw
        until_key frame

; A wave of 256 bytes from 0 to 126, of two parabolas: 63 plus and minus x times 128 - x, divided by 66.
make_wave:
        mov di, wave
        xor cx, cx
.next:  mov al, cl
        and al, 127
        mov ah, 128
        sub ah, al
        mul ah
        mov bl, 66
        div bl
        mov ah, 63
        test cl, 128
        jnz .down
        add ah, al
        jmp .store
.down:  sub ah, al
.store: mov [di], ah
        inc di
        inc cl
        jnz .next
        ret

; Red, green and blue are the same wave, a third of it apart.
turn_colours:
        mov dx, DAC_INDEX
        xor al, al
        out dx, al
        inc dx
        xor cx, cx
.next:  mov bl, cl
        add bl, [time]
        call part
        add bl, 85
        call part
        add bl, 85
        call part
        inc cl
        jnz .next
        ret
part:   xor bh, bh
        mov al, [wave + bx]
        shr al, 1
        out dx, al
        ret

; Two dots are alike, so that a word is written at a time.
draw:   xor di, di
        xor bx, bx
        xor cx, cx              ; the line
.line:  mov bl, cl
        add bl, [time]
        mov ch, [wave + bx]
        mov bl, cl
        shl bl, 1
        sub bl, [time]
        add ch, [wave + bx]
        mov dl, [time]          ; the wave across
        mov si, 160
.dots:  mov bl, dl
        mov al, [wave + bx]
        add al, ch
        mov ah, al
        stosw
        add dl, 3
        dec si
        jnz .dots
        xor ch, ch
        inc cl
        cmp cl, 200
        jb .line
        ret

time    db 0
wave:
