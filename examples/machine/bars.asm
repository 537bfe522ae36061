; Colour bars. Mode 13 with nothing in it: colour 0 is another one in each line, set while the line before it ends.
%include "video.inc"

LINES   equ 400

        mode 13h
frame:  retrace
        cli                             ; an interrupt would come late
        inc byte [time]
        mov bl, [time]
        mov cx, LINES
line:   mov dx, STATUS
.shown: in al, dx                       ; until dots are displayed
        test al, BLANK
        jnz .shown
.blank: in al, dx                       ; until they are not
        test al, BLANK
        jz .blank
        call colour
        inc bl
        loop line
        sti
        until_key frame

; Colour 0 by BL.
colour: mov dx, DAC_INDEX
        xor al, al
        out dx, al
        inc dx
        mov al, bl
        call shade
        mov al, bl
        shl al, 1
        call shade
        mov al, bl
        neg al
; A shade that comes and goes.
shade:  test al, 40h
        jz .up
        not al
.up:    and al, 3Fh
        out dx, al
        ret

time    db 0
