; where a Pascal program with far data begins: nasm -f obj -o large/prt0l.o start.asm, with -DNEAR for the model compact, and with -DHUGE for
; the model huge, in which each unit has a segment of data of its own: then the automatic data segment has the stack and this word
    extern PASCALMAIN
%ifdef HUGE
    group DGROUP start_data
    segment start_data class=DATA public use16
    dw 0
%endif
%ifdef NEAR
    segment _TEXT class=CODE public use16
..start:
    call PASCALMAIN
%else
    segment start_text class=CODE public use16
..start:
    call far PASCALMAIN
%endif
