program hello;

var
  done: word;
  line: array[0..7] of char = ('l', 'i', 'n', 'e', ' ', '?', '.', #10);
  k: word;

begin
  for k := 1 to 3 do
  begin
    line[5] := char(ord('0') + k);
    DosWrite(1, seg(line), ofs(line), 8, seg(done), ofs(done));
  end;
end.
