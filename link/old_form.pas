{ The old stored form from Free Pascal: records as the old program wrote them, each taken into a frame by Yakepuhi and back again,
  then read into a record as the old program would. }
program old_form;

{$mode objfpc}{$H+}
{$linklib linked, static}
{$linklib c}

const
  FrameBytes = 22;
  OldBytes = 58;
  OldDigits = 2 * OldBytes;
  Fields = 6;
  Mark = $EE;
  Names: array[1..Fields, 0..1] of string = (
    ('mass', 'kg'), ('mean concentration', 'g/m3'), ('stoichiometric concentration', 'g/m3'), ('heat', 'MJ/kg'), ('distance', 'm'),
    ('body mass', 'kg'));
  { 8 t of propane on the ground, 100 m away }
  Propane: array[1..Fields] of Double = (8000, 140, 77, 46.4, 100, 70);

type
  { A double as the old program stored it, high byte first. }
  TStored = QWord;

  TOldField = packed record
    Tag: Byte;
    Value: TStored;
  end;

  TOldRecord = packed record
    Substance, State, Placement, Surroundings: Byte;
    Field: array[1..Fields] of TOldField;
  end;

  TValues = array[1..Fields] of Double;

{ The promises of these are in yakepuhi.h. }
function yakepuhi_frame_from_old(line: PByte; lineLength: SizeUInt; area: PByte; areaLength: SizeUInt): QWord; cdecl; external;
function yakepuhi_old_from_frame(frame: PByte; frameLength: SizeUInt; area: PByte; areaLength: SizeUInt): QWord; cdecl; external;

function Stored(x: Double): TStored;
var
  bits: QWord absolute x;
begin
  Stored := NtoBE(bits);
end;

function Loaded(value: TStored): Double;
var
  bits: QWord;
  x: Double absolute bits;
begin
  bits := BEtoN(value);
  Loaded := x;
end;

function Digits(bytes: PByte; count: Integer): string;
var
  i: Integer;
begin
  Result := '';
  for i := 0 to count - 1 do
    Result := Result + HexStr(bytes[i], 2);
end;

function Entered(const values: TValues): TOldRecord;
var
  i: Integer;
begin
  Result.Substance := 17;
  Result.State := 0;
  Result.Placement := 1;
  Result.Surroundings := 4;
  for i := 1 to Fields do
  begin
    Result.Field[i].Tag := i;
    Result.Field[i].Value := Stored(values[i]);
  end;
end;

procedure PrintVerdict(const way: string; refusal: QWord);
begin
  if refusal = 0 then
    WriteLn('  ', way, ': accepted')
  else
    WriteLn('  ', way, ': refusal ', refusal);
end;

{ The bytes of an area that kept their mark. }
function Kept(area: PByte; count: Integer): Integer;
var
  i: Integer;
begin
  Result := 0;
  for i := 0 to count - 1 do
    if area[i] = Mark then Inc(Result);
end;

{ The record of an old line, as the old program read it. }
function Opened(const line: string): TOldRecord;
var
  bytes: array[0..OldBytes - 1] of Byte;
  i: Integer;
begin
  for i := 0 to OldBytes - 1 do
    Val('$' + Copy(line, 2 * i + 1, 2), bytes[i]);
  Move(bytes, Result, OldBytes);
end;

procedure PrintRecord(const old: TOldRecord);
var
  i: Integer;
begin
  for i := 1 to Fields do
    WriteLn('    ', Names[old.Field[i].Tag, 0], ' ', Loaded(old.Field[i].Value):0:6, ' ', Names[old.Field[i].Tag, 1]);
end;

procedure TurnBack(const line: string; frame: PByte; room: SizeUInt);
var
  area: array[0..OldDigits - 1] of Byte;
  back: string;
  refusal: QWord;
begin
  FillChar(area, SizeOf(area), Mark);
  refusal := yakepuhi_old_from_frame(frame, FrameBytes, @area[0], room);
  PrintVerdict('way back', refusal);
  if refusal <> 0 then
  begin
    WriteLn('    ', Kept(@area[0], SizeOf(area)), ' bytes of the area kept');
    Exit;
  end;
  SetString(back, PChar(@area[0]), OldDigits);
  WriteLn('    ', back);
  if back = line then
    WriteLn('    the line that was given')
  else
    WriteLn('    another line');
  PrintRecord(Opened(back));
end;

procedure Turn(const title: string; const old: TOldRecord; roomIn: SizeUInt = FrameBytes; roomBack: SizeUInt = OldDigits);
var
  area: array[0..FrameBytes - 1] of Byte;
  line: string;
  refusal: QWord;
begin
  line := Digits(@old, OldBytes);
  WriteLn(title);
  WriteLn('    ', line);
  FillChar(area, SizeOf(area), Mark);
  refusal := yakepuhi_frame_from_old(PByte(PChar(line)), Length(line), @area[0], roomIn);
  PrintVerdict('way in', refusal);
  if refusal = 0 then
  begin
    WriteLn('    ', Digits(@area[0], FrameBytes));
    TurnBack(line, @area[0], roomBack);
  end
  else
    WriteLn('    ', Kept(@area[0], SizeOf(area)), ' bytes of the area kept');
end;

{ Propane with another double in one field, given as its bits. }
function Changed(field: Integer; bits: QWord): TOldRecord;
begin
  Result := Entered(Propane);
  Result.Field[field].Value := NtoBE(bits);
end;

{ Propane with the tags of two fields exchanged. }
function Exchanged(one, other: Integer): TOldRecord;
begin
  Result := Entered(Propane);
  Result.Field[one].Tag := other;
  Result.Field[other].Tag := one;
end;

const
  Tenths: TValues = (0.1, 0.2, 0.3, 0.7, 0.01, 1);
  Finer: TValues = (12.3456, 140.06, 77.04, 46.40049, 99.995, 70.5);
  LostHeat: TValues = (8000, 140, 77, 0.0004, 100, 70);
  BelowZero: TValues = (8000, 140, 77, 46.4, -100, 70);
  MinusZero = QWord($8000000000000000);
  { an operation on this one would end the program, since Free Pascal traps it }
  NoNumber = QWord($7FF0000000000001);
begin
  Turn('propane', Entered(Propane));
  Turn('decimals that are no binary fractions', Entered(Tenths));
  Turn('more decimals than a frame keeps', Entered(Finer));
  Turn('minus zero for the heat', Changed(4, MinusZero));
  Turn('two tags exchanged', Exchanged(2, 3));
  Turn('a distance below zero', Entered(BelowZero));
  Turn('a body mass that is no number', Changed(6, NoNumber));
  Turn('a heat too small for a frame', Entered(LostHeat));
  Turn('an area of 21 bytes', Entered(Propane), FrameBytes - 1);
  Turn('an area of 115 characters', Entered(Propane), FrameBytes, OldDigits - 1);
end.
