{ The unit that the compiler wants in front of each program: its types, and the two procedures that a program calls at its start
  and its end. Nothing of Free Pascal's own run-time library is used, which is written to DOS. }
unit system;
interface
type
  hresult = longint;
  dword = longword;
  cardinal = longword;
  integer = smallint;
  pchar = ^char;
  ptruint = word;
  ptrint = smallint;
  sizeuint = word;
  sizeint = smallint;
  ttypekind = (tkunknown);
  pguid = ^tguid;
  tguid = record d1: longword; d2, d3: word; d4: array[0..7] of byte end;
  jmp_buf = record b, s, i: word end;
  pjmp_buf = ^jmp_buf;
  pexceptaddr = ^texceptaddr;
  texceptaddr = record buf: pjmp_buf; next: pexceptaddr; frametype: smallint end;
  filerec = record end;
  textrec = record end;

{ A far pointer is given as its selector and its offset. }
function DosRead(handle, textseg, textofs, count, doneseg, doneofs: word): word; pascal; far; external name 'DosRead';
function DosWrite(handle, textseg, textofs, count, doneseg, doneofs: word): word; pascal; far; external name 'DosWrite';
procedure DosExit(action, code: word); pascal; far; external name 'DosExit';

procedure fpc_initializeunits; compilerproc;
procedure fpc_do_exit; compilerproc;

implementation

procedure fpc_initializeunits; [public, alias: 'FPC_INITIALIZEUNITS']; compilerproc;
begin
end;

procedure fpc_do_exit; [public, alias: 'FPC_DO_EXIT']; compilerproc;
begin
  DosExit(1, 0);
end;

end.
