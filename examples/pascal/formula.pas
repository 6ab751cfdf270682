{ Reads formulas of x, one in each line, with the operators after what they work on: `x x * 3 -` is x times x less 3. It makes machine
  code of each, calls that for x from 0 to 9, and writes the line with the results.

  The code lies in one segment for all formulas, which is written as data and called by an alias of the segment as code. The segment
  is discardable, and locked only while it has a formula's code. It is for the models large and huge, whose calls are far. }
program formula;

const
  codesize = 512;
  discardable = 4;

type
  tfunction = function(x: smallint): smallint; pascal;

var
  selector, alias: word;
  code: pchar;
  used, depth: word;
  character: char;
  ended: boolean;

{ Reads the next character of the input; a line end follows its last. }
procedure Next;
var
  done: word;
begin
  DosRead(0, character, 1, done);
  if done = 0 then
  begin
    character := #10;
    ended := true;
  end;
end;

procedure Emit(value: byte);
begin
  code[used] := char(value);
  inc(used);
end;

procedure EmitWord(number: word);
begin
  Emit(number and 255);
  Emit(number shr 8);
end;

{ Bytes that end with a zero, which isn't one of them. }
procedure EmitBytes(bytes: pchar);
begin
  while bytes^ <> #0 do
  begin
    Emit(ord(bytes^));
    inc(bytes);
  end;
end;

{ push number }
procedure EmitNumber(number: word);
begin
  Emit($68);
  EmitWord(number);
  inc(depth);
end;

function ReadNumber: word;
var
  number: word;
begin
  number := 0;
  while (character >= '0') and (character <= '9') do
  begin
    number := number * 10 + ord(character) - ord('0');
    Put(character);
    Next;
  end;
  ReadNumber := number;
end;

{ x, which lies above BP and the four bytes of the place to return to }
function MakeArgument(bytes: pchar): boolean;
begin
  EmitBytes(bytes);
  inc(depth);
  MakeArgument := true;
end;

{ pop cx, pop ax, the operation, push ax }
function MakeOperation(bytes: pchar): boolean;
begin
  MakeOperation := depth >= 2;
  EmitBytes(#$59#$58);
  EmitBytes(bytes);
  EmitBytes(#$50);
  dec(depth);
end;

function MakeNothing(bytes: pchar): boolean;
begin
  MakeNothing := true;
end;

{ What each character makes: this table has far pointers to code and to data, which the loader fills in. }
const
  rulescount = 5;
  rules: array[1..rulescount] of record
    character: char;
    make: function(bytes: pchar): boolean;
    bytes: pchar;
  end = (
    (character: 'x'; make: @MakeArgument; bytes: #$FF#$76#$06),         { push word [bp + 6] }
    (character: '+'; make: @MakeOperation; bytes: #$01#$C8),            { add ax, cx }
    (character: '-'; make: @MakeOperation; bytes: #$29#$C8),            { sub ax, cx }
    (character: '*'; make: @MakeOperation; bytes: #$F7#$E9),            { imul cx }
    (character: ' '; make: @MakeNothing; bytes: '')
  );

function MakeCharacter: boolean;
var
  k: word;
begin
  k := 1;
  while (k <= rulescount) and (rules[k].character <> character) do
    inc(k);
  MakeCharacter := (k <= rulescount) and rules[k].make(rules[k].bytes);
  Put(character);
  Next;
end;

{ Makes the code of a line, which it writes as it reads it, and says whether it is a formula. }
function Compile: boolean;
var
  well: boolean;
begin
  used := 0;
  depth := 0;
  well := true;
  { push bp; mov bp, sp }
  EmitBytes(#$55#$89#$E5);
  while character <> #10 do
  begin
    if (character >= '0') and (character <= '9') then
      EmitNumber(ReadNumber)
    else if not MakeCharacter then
      well := false;
    if used > codesize - 16 then
      well := false;
    if not well then
      used := 0;
  end;
  { pop ax; pop bp; retf 2 }
  EmitBytes(#$58#$5D);
  Emit($CA);
  EmitWord(2);
  Compile := well and (depth = 1);
end;

procedure PutSigned(number: smallint);
begin
  if number < 0 then
  begin
    Put('-');
    number := -number;
  end;
  PutNumber(number, 0);
end;

{ Calls the code by the alias. }
procedure Run;
var
  call: tfunction;
  x: smallint;
begin
  call := tfunction(Ptr(alias, 0));
  for x := 0 to 9 do
  begin
    Put(' ');
    PutSigned(call(x));
  end;
end;

procedure Check(error: word);
begin
  if error <> 0 then
  begin
    Flush;
    DosExit(1, error);
  end;
end;

begin
  Check(DosAllocSeg(codesize, selector, discardable));
  Check(DosCreateCSAlias(selector, alias));
  code := Ptr(selector, 0);
  { (it is locked once from the start) }
  Check(DosUnlockSeg(selector));
  Next;
  while not ended do
  begin
    Check(DosLockSeg(selector));
    if Compile then
    begin
      PutText(' :');
      Run;
    end
    else
      PutText(' : no formula');
    Put(#10);
    Check(DosUnlockSeg(selector));
    Next;
  end;
  Check(DosFreeSeg(alias));
  Check(DosFreeSeg(selector));
end.
