; medium: main with code in two segments and data in one that is reached far. nasm -f obj -o medium.obj medium.asm
    import DosExit DOSCALLS 5
    extern DosExit, far_greet

    segment medium_code class=CODE public use16
..start:
    mov ax, seg letter          ; the selector of the other segment of data
    mov es, ax
    mov al, [es:letter]
    mov [text], al
    call far far_greet
    push 1
    push 0
    call far DosExit

    segment data class=DATA public use16
global text
text: db '?ar call', 10

    segment stack class=STACK stack use16
    resb 512

    group DGROUP data stack

    segment far_data class=FAR_DATA private use16
letter: db 'f'
