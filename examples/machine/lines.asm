; Lines without end. Mode 12: from each random place to the next, dot by dot: set/reset has the colour, bit mask the dot.
%include "video.inc"

ROW     equ 80

        mode 12h
        mov ax, 0A000h
        mov es, ax
        register GRAPHICS, 1, 0Fh       ; enable set/reset: all planes

next:   inc byte [colour]
        and byte [colour], 0Fh
        mov dx, GRAPHICS
        mov al, 0                       ; set/reset
        mov ah, [colour]
        out dx, ax
        mov bx, 640
        call random
        mov [to_x], dx
        mov bx, 480
        call random
        mov [to_y], dx
        call line
        until_key next

; A number below BX, in DX.
random: mov ax, [seed]
        mov cx, 25173
        mul cx
        add ax, 13849
        mov [seed], ax
        xor dx, dx
        div bx
        ret

; The distance from CX to DX in AX, and the way there in BX: 1 or -1.
distance:
        mov bx, 1
        mov ax, dx
        sub ax, cx
        jns .done
        neg ax
        neg bx
.done:  ret

; By Bresenham, from the place of the last line's end.
line:   mov cx, [x]
        mov dx, [to_x]
        call distance
        mov [across], ax
        mov [step_x], bx
        mov cx, [y]
        mov dx, [to_y]
        call distance
        mov [down], ax
        mov [step_y], bx
        mov ax, [across]
        sub ax, [down]
        mov [error], ax
.dot:   call dot
        mov ax, [x]
        cmp ax, [to_x]
        jne .on
        mov ax, [y]
        cmp ax, [to_y]
        je .done
.on:    mov cx, [error]
        shl cx, 1
        mov ax, cx
        add ax, [down]
        jle .stay
        mov ax, [down]
        sub [error], ax
        mov ax, [step_x]
        add [x], ax
.stay:  cmp cx, [across]
        jge .dot
        mov ax, [across]
        add [error], ax
        mov ax, [step_y]
        add [y], ax
        jmp .dot
.done:  ret

; Reading loads the latches, which keep the seven dots beside it.
dot:    mov ax, ROW
        mul word [y]
        mov di, ax
        mov ax, [x]
        shr ax, 3
        add di, ax
        mov cx, [x]
        and cl, 7
        mov ah, 80h
        shr ah, cl
        mov al, 8                       ; bit mask
        mov dx, GRAPHICS
        out dx, ax
        mov al, [es:di]
        mov [es:di], al
        ret

colour  db 0
seed    dw 1
x       dw 320
y       dw 240
to_x    dw 0
to_y    dw 0
across  dw 0
down    dw 0
step_x  dw 0
step_y  dw 0
error   dw 0
