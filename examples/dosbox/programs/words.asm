; Text: all cells of the page, word by word.
%include "program.inc"

start:  mode    3
        mov     ax, 1003h               ; sixteen backgrounds, so that nothing blinks
        xor     bx, bx
        int     10h
        mov     ah, 1                   ; no cursor, since it blinks
        mov     cx, 2000h
        int     10h
        display 0B800h
page:   inc     bp
        xor     di, di
        mov     cx, 2000
.cell:  mov     ax, di
        add     ax, bp
        mov     [es:di], ax
        add     di, 2
        loop    .cell
        rounds  20, page
