; main: calls greet of another file, and ends. nasm -f obj -o main.obj main.asm
    import DosExit DOSCALLS 5
    extern DosExit, greet

    segment code class=CODE public use16
..start:
    call greet
    push 1                      ; end the whole process
    push 0                      ; its exit code
    call far DosExit

    segment data class=DATA public use16
global text
text: db 'two files', 10

    segment stack class=STACK stack use16
    resb 512

    group DGROUP data stack
