{ The unit that the compiler wants in front of each program, for the memory models with far data (compact, large and huge): its
  types, the system's calls, a heap of segments, and the two procedures that a program calls at its start and its end. Nothing of
  Free Pascal's own run-time library is used, which is written to DOS.

  A pointer has four bytes here, selector and offset. So the calls have the parameters that OS/2's own documents give them: what is
  passed by VAR or CONST, and each pointer, is a far pointer. }
unit system;
{$asmmode intel}
interface
type
  hresult = longint;
  dword = longword;
  cardinal = longword;
  integer = smallint;
  pchar = ^char;
  ptruint = longword;
  ptrint = longint;
  sizeuint = word;
  sizeint = smallint;
  ttypekind = (tkunknown);
  pguid = ^tguid;
  tguid = record d1: longword; d2, d3: word; d4: array[0..7] of byte end;
  jmp_buf = record b, s, i, c: word end;
  pjmp_buf = ^jmp_buf;
  pexceptaddr = ^texceptaddr;
  texceptaddr = record buf: pjmp_buf; next: pexceptaddr; frametype: smallint end;
  filerec = record end;
  textrec = record end;

{ The calls. Each returns an error number, and 0 where there is none. }
function DosRead(handle: word; var buffer; count: word; var done: word): word; pascal; far; external name 'DosRead';
function DosWrite(handle: word; const buffer; count: word; var done: word): word; pascal; far; external name 'DosWrite';
procedure DosExit(action, code: word); pascal; far; external name 'DosExit';
function DosAllocSeg(size: word; var selector: word; flags: word): word; pascal; far; external name 'DosAllocSeg';
function DosReallocSeg(size, selector: word): word; pascal; far; external name 'DosReallocSeg';
function DosFreeSeg(selector: word): word; pascal; far; external name 'DosFreeSeg';
function DosSizeSeg(selector: word; var size: longword): word; pascal; far; external name 'DosSizeSeg';
function DosLockSeg(selector: word): word; pascal; far; external name 'DosLockSeg';
function DosUnlockSeg(selector: word): word; pascal; far; external name 'DosUnlockSeg';
function DosSubSet(selector, flags, size: word): word; pascal; far; external name 'DosSubSet';
function DosSubAlloc(selector: word; var offset: word; size: word): word; pascal; far; external name 'DosSubAlloc';
function DosSubFree(selector, offset, size: word): word; pascal; far; external name 'DosSubFree';
function DosCreateCSAlias(selector: word; var alias: word): word; pascal; far; external name 'DosCreateCSAlias';

{ The far pointer with this selector and this offset. }
function Ptr(selector, offset: word): pointer;

{ The heap. A program that can't have what it asks for ends with the code 203, as Pascal's own do. }
function GetMem(size: word): pointer;
procedure GetMem(var p: pointer; size: word);
procedure FreeMem(p: pointer);
function ReallocMem(var p: pointer; size: word): pointer;
{ How many bytes a block has, at least those that were asked for. }
function MemSize(p: pointer): word;
{ Copies bytes; the two places mustn't overlap. }
procedure Move(const source; var target; count: word);

{ Lines for the console. }
procedure Put(c: char);
procedure PutText(const text: shortstring);
procedure PutNumber(number, width: word);
procedure Flush;

function fpc_getmem(size: word): pointer; compilerproc;
procedure fpc_freemem(p: pointer); compilerproc;
procedure fpc_initializeunits; compilerproc;
procedure fpc_do_exit; compilerproc;

implementation

function Ptr(selector, offset: word): pointer;
begin
  Ptr := pointer(longword(selector) shl 16 or offset);
end;

procedure Move(const source; var target; count: word); assembler;
asm
  push ds
  lds si, source
  les di, target
  mov cx, count
  cld
  rep movsb
  pop ds
end;

{$ifdef SUBHEAP}
{$i subheap.inc}
{$else}
{$i heap.inc}
{$endif}

var
  line: array[0..127] of char;
  filled: word;

procedure Flush;
var
  done: word;
begin
  if filled <> 0 then
    DosWrite(1, line, filled, done);
  filled := 0;
end;

{ A line is written when it ends. }
procedure Put(c: char);
begin
  line[filled] := c;
  inc(filled);
  if (c = #10) or (filled = 128) then
    Flush;
end;

procedure PutText(const text: shortstring);
var
  k: word;
begin
  for k := 1 to length(text) do
    Put(text[k]);
end;

procedure PutNumber(number, width: word);
var
  digits: array[0..4] of char;
  count: word;
begin
  count := 0;
  repeat
    digits[count] := char(ord('0') + number mod 10);
    number := number div 10;
    inc(count);
  until number = 0;
  while width > count do
  begin
    Put(' ');
    dec(width);
  end;
  repeat
    dec(count);
    Put(digits[count]);
  until count = 0;
end;

procedure fpc_initializeunits; [public, alias: 'FPC_INITIALIZEUNITS']; compilerproc;
begin
end;

procedure fpc_do_exit; [public, alias: 'FPC_DO_EXIT']; compilerproc;
begin
  Flush;
  DosExit(1, 0);
end;

end.
