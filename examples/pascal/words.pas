{ Counts the words of the input, and writes each with its count: the most frequent first, those of one count by the alphabet.

  All that it reads and counts lies on the heap: the whole input in a block that grows as it is read, and a tree with a record and a text
  for each word. At the end all of it is given back, so the report has a line `drop` for each line `hold` of DosAllocSeg. }
program words;

const
  readstep = 128;
  readmost = 65408;

type
  ptext = ^shortstring;
  pnode = ^tnode;
  tnode = record
    left, right: pnode;         { the words before it and after it by the alphabet }
    next: pnode;                { the next word of the list }
    text: ptext;
    count: word;
  end;

var
  input: pchar;
  filled, at: word;
  current: shortstring;
  root, list, last: pnode;

{ Reads the whole input. }
procedure ReadAll;
var
  size, done: word;
begin
  size := 0;
  filled := 0;
  repeat
    if filled = size then
    begin
      if size = readmost then
      begin
        PutText('the input is too long'#10);
        Flush;
        DosExit(1, 1);
      end;
      inc(size, readstep);
      ReallocMem(input, size);
    end;
    DosRead(0, input[filled], size - filled, done);
    inc(filled, done);
  until filled < size;
end;

{ A character as a small letter, or #0 where it is no letter. }
function Letter(c: char): char;
begin
  if (c >= 'A') and (c <= 'Z') then
    c := char(ord(c) + 32);
  if (c < 'a') or (c > 'z') then
    c := #0;
  Letter := c;
end;

{ Puts the next word of the input into `current`, at most 40 letters of it, and says whether there was one. }
function NextWord: boolean;
var
  count: word;
  c: char;
begin
  count := 0;
  while at < filled do
  begin
    c := Letter(input[at]);
    inc(at);
    if c = #0 then
    begin
      if count <> 0 then
        break;
    end
    else if count < 40 then
    begin
      inc(count);
      current[count] := c;
    end;
  end;
  current[0] := char(count);
  NextWord := count <> 0;
end;

{ Below 0 where one text comes before another, 0 where they are the same, and above 0 else. }
function Compare(const one, other: shortstring): smallint;
var
  k, most: word;
begin
  most := length(one);
  if most > length(other) then
    most := length(other);
  k := 1;
  while (k <= most) and (one[k] = other[k]) do
    inc(k);
  if k <= most then
    Compare := ord(one[k]) - ord(other[k])
  else
    Compare := length(one) - length(other);
end;

{ Counts the current word once more, in a record of its own where it is new. }
procedure CountWord;
var
  place: ^pnode;
  node: pnode;
  order: smallint;
begin
  place := @root;
  while place^ <> nil do
  begin
    node := place^;
    order := Compare(current, node^.text^);
    if order = 0 then
    begin
      inc(node^.count);
      exit;
    end;
    if order < 0 then
      place := @node^.left
    else
      place := @node^.right;
  end;
  New(node);
  node^.left := nil;
  node^.right := nil;
  node^.next := nil;
  node^.count := 1;
  GetMem(node^.text, length(current) + 1);
  Move(current, node^.text^, length(current) + 1);
  place^ := node;
end;

{ Makes a list of a tree, by the alphabet. }
procedure ListTree(node: pnode);
begin
  if node = nil then
    exit;
  ListTree(node^.left);
  if last = nil then
    list := node
  else
    last^.next := node;
  last := node;
  ListTree(node^.right);
end;

{ Two lists, each by falling counts, as one; where counts are the same the first list's come first. }
function Merge(one, other: pnode): pnode;
var
  first: pnode;
  place: ^pnode;
begin
  first := nil;
  place := @first;
  while (one <> nil) and (other <> nil) do
    if other^.count > one^.count then
    begin
      place^ := other;
      place := @other^.next;
      other := other^.next;
    end
    else
    begin
      place^ := one;
      place := @one^.next;
      one := one^.next;
    end;
  if one <> nil then
    place^ := one
  else
    place^ := other;
  Merge := first;
end;

{ A list by falling counts, words of one count in the order in which they are. }
function Sorted(first: pnode): pnode;
var
  middle, ending, second: pnode;
begin
  Sorted := first;
  if (first = nil) or (first^.next = nil) then
    exit;
  middle := first;
  ending := first^.next;
  while ending <> nil do
  begin
    ending := ending^.next;
    if ending <> nil then
    begin
      ending := ending^.next;
      middle := middle^.next;
    end;
  end;
  second := middle^.next;
  middle^.next := nil;
  Sorted := Merge(Sorted(first), Sorted(second));
end;

{ Writes the list, and gives its records and texts back. }
procedure WriteList;
var
  node: pnode;
begin
  while list <> nil do
  begin
    node := list;
    list := node^.next;
    PutNumber(node^.count, 5);
    Put(' ');
    PutText(node^.text^);
    Put(#10);
    FreeMem(node^.text);
    Dispose(node);
  end;
end;

begin
  ReadAll;
  while NextWord do
    CountWord;
  FreeMem(input);
  ListTree(root);
  list := Sorted(list);
  WriteList;
end.
