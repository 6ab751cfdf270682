; where a Pascal program begins: nasm -f obj -o prt0s.o start.asm, or -DMEDIUM -o prt0m.o for the medium model
    extern PASCALMAIN
%ifdef MEDIUM
    segment start_text class=CODE public use16
..start:
    call far PASCALMAIN
%else
    segment _TEXT class=CODE public use16
..start:
    call PASCALMAIN
%endif
