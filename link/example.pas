{ Calls Yakepuhi from Free Pascal: a case as a line and as a frame's bytes, its overpressure and its impulse alone, its rules,
  its rings, its line in the old form, its frame from eleven numbers, its spelling, the same in mountain air, what every refusal but a sheet's is
  called, each printed in readable form. }
program example;

{$mode objfpc}{$H+}
{$linklib linked, static}
{$linklib c}

const
  AnswerBytes = 77;
  FrameBytes = 22;
  LineCharacters = 44;
  LongFrameBytes = 24;
  LongLineCharacters = 48;
  OldCharacters = 116;
  Mark = $EE;
  { air pressures in units of 10 Pa; the greatest threshold of a ring is 180 times that of its case }
  StandardAir = 10130;
  LeastAir = 5000;
  GreatestAir = 11000;
  GreatestThreshold = 180 * StandardAir;
  { by number; none is numbered 4, and 17 and 18 are a sheet's }
  Words: array[0..19] of string = ('accepted', 'length', 'digit', 'substance', '', 'quantity', 'heat', 'beyond', 'space', 'threshold', 'weak', 'strong',
    'state', 'placement', 'surroundings', 'tag', 'double', '', '', 'air');
  { by number }
  Rules: array[0..4] of string = ('undecided', 'near-field value', 'detonation formula', 'deflagration formula', 'deflagration formula at 0.34');
  { 8 t of propane on the ground, 100 m away }
  Line = '11000104007A1200057803020000B540000027100046';
  Frame: array[0..FrameBytes - 1] of Byte = ($11, 0, 1, 4, 0, $7A, $12, 0, 5, $78, 3, 2, 0, 0, $B5, $40, 0, 0, $27, $10, 0, $46);
  { the same in air of 80000 Pa, and with its 101300 Pa written out }
  MountainLine = Line + '1F40';
  FullLine = Line + '2792';
  MountainFrame: array[0..LongFrameBytes - 1] of Byte = ($11, 0, 1, 4, 0, $7A, $12, 0, 5, $78, 3, 2, 0, 0, $B5, $40, 0, 0, $27, $10, 0, $46, $1F, $40);
  FullFrame: array[0..LongFrameBytes - 1] of Byte = ($11, 0, 1, 4, 0, $7A, $12, 0, 5, $78, 3, 2, 0, 0, $B5, $40, 0, 0, $27, $10, 0, $46, $27, $92);
  { the same case, each time with one thing wrong }
  Wrong: array[1..9, 0..1] of string = (
    ('one character less', '11000104007A1200057803020000B54000002710004'),
    ('a G', '11000104007A1200057803020000B54000002710004G'),
    ('substance 76', '4C000104007A1200057803020000B540000027100046'),
    ('state 2', '11020104007A1200057803020000B540000027100046'),
    ('placement 2', '11000204007A1200057803020000B540000027100046'),
    ('surroundings 5', '11000105007A1200057803020000B540000027100046'),
    ('body mass 0', '11000104007A1200057803020000B540000027100000'),
    ('unlisted, without a heat', '00000104007A12000578030200000000000027100046'),
    ('at 10 km', '11000104007A1200057803020000B540000F42400046'));

type
  TArea = array[0..AnswerBytes + 2] of Byte;
  TOldArea = array[0..OldCharacters + 3] of Byte;
  TLineArea = array[0..LineCharacters + 3] of Byte;
  TLongFrameArea = array[0..LongFrameBytes + 3] of Byte;
  TLongLineArea = array[0..LongLineCharacters + 3] of Byte;
  TSpeller = function(given: PByte; count: SizeUInt; area: PByte; areaLength: SizeUInt): QWord; cdecl;

{ The promises of these are in yakepuhi.h. }
function yakepuhi_from_line(line: PByte; lineLength: SizeUInt; area: PByte; areaLength: SizeUInt): QWord; cdecl; external;
function yakepuhi_from_frame(frame: PByte; frameLength: SizeUInt; area: PByte; areaLength: SizeUInt): QWord; cdecl; external;
function yakepuhi_overpressure(frame: PByte; frameLength: SizeUInt; lower, upper: PQWord): QWord; cdecl; external;
function yakepuhi_impulse(frame: PByte; frameLength: SizeUInt; lower, upper: PQWord): QWord; cdecl; external;
function yakepuhi_rules(frame: PByte; frameLength: SizeUInt; pressure, impulse: PQWord): QWord; cdecl; external;
function yakepuhi_ring_from_frame(frame: PByte; frameLength: SizeUInt; threshold: QWord; inner, outer: PQWord): QWord; cdecl; external;
function yakepuhi_ring_from_line(line: PByte; lineLength: SizeUInt; threshold: QWord; inner, outer: PQWord): QWord; cdecl; external;
function yakepuhi_frame_from_old(line: PByte; lineLength: SizeUInt; area: PByte; areaLength: SizeUInt): QWord; cdecl; external;
function yakepuhi_old_from_frame(frame: PByte; frameLength: SizeUInt; area: PByte; areaLength: SizeUInt): QWord; cdecl; external;
function yakepuhi_frame_from_fields(substance, state, placement, surroundings, mass, mean, stoichiometric, heat, distance, body,
  air: QWord; area: PByte; areaLength: SizeUInt): QWord; cdecl; external;
function yakepuhi_spell_frame(frame: PByte; frameLength: SizeUInt; area: PByte; areaLength: SizeUInt): QWord; cdecl; external;
function yakepuhi_spell_line(line: PByte; lineLength: SizeUInt; area: PByte; areaLength: SizeUInt): QWord; cdecl; external;

function Two(const a: TArea; at: Integer): LongWord;
begin
  Two := a[at] * 256 + a[at + 1];
end;

function Four(const a: TArea; at: Integer): LongWord;
begin
  Four := Two(a, at) shl 16 or Two(a, at + 2);
end;

function Thousandths(n: LongInt): string;
var
  part: string;
begin
  Str(Abs(n) mod 1000 + 1000, part);
  Str(Abs(n) div 1000, Result);
  Result := Result + '.' + Copy(part, 2, 3);
  if n < 0 then Result := '-' + Result;
end;

function Percent(tenths: LongWord): string;
begin
  Str(tenths div 10, Result);
  Result := Result + '.' + Chr(Ord('0') + tenths mod 10);
end;

procedure PrintAnswer(const a: TArea);
var
  i: Integer;
begin
  WriteLn('  speed range   ', a[0]);
  WriteLn('  overpressure  ', Four(a, 1), ' to ', Four(a, 5), ' Pa');
  WriteLn('  impulse       ', Four(a, 9), ' to ', Four(a, 13), ' Pa s');
  for i := 0 to 4 do
    WriteLn('  probit ', i + 1, '      ', Thousandths(LongInt(Four(a, 17 + 8 * i))), ' to ', Thousandths(LongInt(Four(a, 21 + 8 * i))),
      ', damage ', Percent(Two(a, 57 + 4 * i)), ' to ', Percent(Two(a, 59 + 4 * i)), ' %');
end;

{ How many bytes from one on kept their mark. }
procedure PrintKept(const area: array of Byte; from: Integer);
var
  i, kept: Integer;
begin
  kept := 0;
  for i := from to High(area) do
    if area[i] = Mark then Inc(kept);
  WriteLn('  ', kept, ' bytes of the area kept');
end;

{ How many bytes from one on are still zero. }
procedure PrintZeros(const area: array of Byte; from: Integer);
var
  i, zeros: Integer;
begin
  zeros := 0;
  for i := from to High(area) do
    if area[i] = 0 then Inc(zeros);
  WriteLn('  ', zeros, ' bytes of the area zero');
end;

{ The verdict, the answer, and how many bytes past it kept their mark. }
procedure Show(const title: string; refusal: QWord; const area: TArea);
var
  first: Integer;
begin
  WriteLn(title, ': ', Words[refusal]);
  first := 0;
  if refusal = 0 then
  begin
    PrintAnswer(area);
    first := AnswerBytes;
  end;
  PrintKept(area, first);
end;

procedure Ask(const title, text: string; room: SizeUInt);
var
  area: TArea;
  refusal: QWord;
begin
  FillChar(area, SizeOf(area), Mark);
  refusal := yakepuhi_from_line(PByte(PChar(text)), Length(text), @area[0], room);
  Show(title, refusal, area);
end;

procedure AskFrame(const title: string; bytes: PByte; count: SizeUInt);
var
  area: TArea;
  refusal: QWord;
begin
  FillChar(area, SizeOf(area), Mark);
  refusal := yakepuhi_from_frame(bytes, count, @area[0], SizeOf(area));
  Show(title, refusal, area);
end;

{ Which air a frame has, for a title. }
function AirOf(count: SizeUInt): string;
begin
  if count = FrameBytes then AirOf := '' else AirOf := ' in mountain air';
end;

{ The rules of a case in other surroundings and at another distance; a refusal leaves both numbers as they were. }
procedure AskRules(bytes: PByte; count: SizeUInt; surroundings: Byte; metres: LongWord);
var
  moved: array[0..LongFrameBytes - 1] of Byte;
  pressure, impulse, refusal: QWord;
  i: Integer;
begin
  pressure := Mark;
  impulse := Mark;
  Move(bytes^, moved, count);
  moved[3] := surroundings;
  for i := 0 to 3 do
    moved[16 + i] := Byte(100 * metres shr (24 - 8 * i));
  refusal := yakepuhi_rules(@moved[0], count, @pressure, @impulse);
  WriteLn('its rules in surroundings ', surroundings, ', ', metres, ' m away', AirOf(count), ': ', Words[refusal]);
  if refusal = 0 then
  begin
    WriteLn('  overpressure  ', Rules[pressure]);
    WriteLn('  impulse       ', Rules[impulse]);
  end
  else
    WriteLn('  ', Ord(pressure = Mark) + Ord(impulse = Mark), ' numbers kept');
end;

{ The ring of a threshold, from the line and from the bytes; a refusal leaves both distances as they were. }
procedure AskRing(const text: string; bytes: PByte; count: SizeUInt; threshold: QWord);
var
  inner, outer, near, far, refusal: QWord;
  other: string;
begin
  inner := Mark;
  outer := Mark;
  near := Mark;
  far := Mark;
  other := 'another';
  refusal := yakepuhi_ring_from_line(PByte(PChar(text)), Length(text), threshold, @inner, @outer);
  if (yakepuhi_ring_from_frame(bytes, count, threshold, @near, @far) = refusal) and (inner = near) and (outer = far) then other := 'the same';
  WriteLn('its ring of ', threshold, ' Pa', AirOf(count), ': ', Words[refusal], ', from its bytes ', other);
  if refusal = 0 then
    WriteLn('  ', inner, ' to ', outer, ' cm')
  else
    WriteLn('  ', Ord(inner = Mark) + Ord(outer = Mark), ' numbers kept');
end;

{ A frame's line in the old form, and the frame that is taken in from it, which has 22 bytes. }
procedure AskOld(const title: string; bytes: PByte; count, room: SizeUInt);
var
  area, again: TOldArea;
  refusal: QWord;
  text, other: string;
begin
  FillChar(area, SizeOf(area), Mark);
  FillChar(again, SizeOf(again), Mark);
  refusal := yakepuhi_old_from_frame(bytes, count, @area[0], room);
  WriteLn(title, ': ', Words[refusal]);
  if refusal <> 0 then
  begin
    PrintKept(area, 0);
    Exit;
  end;
  SetString(text, PChar(@area[0]), OldCharacters);
  WriteLn('  ', text);
  PrintKept(area, OldCharacters);
  refusal := yakepuhi_frame_from_old(@area[0], OldCharacters, @again[0], SizeOf(again));
  other := 'another frame';
  if CompareByte(bytes^, again, FrameBytes) = 0 then other := 'the same frame';
  WriteLn('taken in again: ', Words[refusal], ', ', other);
  PrintKept(again, FrameBytes);
end;

{ An old line that has something wrong. }
procedure AskOldLine(const title, text: string);
var
  area: TOldArea;
  refusal: QWord;
begin
  FillChar(area, SizeOf(area), Mark);
  refusal := yakepuhi_frame_from_old(PByte(PChar(text)), Length(text), @area[0], SizeOf(area));
  WriteLn(title, ': ', Words[refusal]);
  PrintKept(area, 0);
end;

{ The spelling of a line or of a frame's bytes, and the spelling of that text. }
procedure AskSpelling(const title: string; spell: TSpeller; given: PByte; count, room: SizeUInt);
var
  area, again: TLineArea;
  refusal: QWord;
  text, other: string;
begin
  FillChar(area, SizeOf(area), Mark);
  FillChar(again, SizeOf(again), Mark);
  refusal := spell(given, count, @area[0], room);
  WriteLn(title, ': ', Words[refusal]);
  if refusal <> 0 then
  begin
    PrintKept(area, 0);
    Exit;
  end;
  SetString(text, PChar(@area[0]), LineCharacters);
  WriteLn('  ', text);
  PrintKept(area, LineCharacters);
  refusal := yakepuhi_spell_line(@area[0], LineCharacters, @again[0], LineCharacters);
  other := 'another';
  if CompareByte(area, again, LineCharacters) = 0 then other := 'the same';
  WriteLn('spelled again: ', Words[refusal], ', ', other);
  PrintKept(again, LineCharacters);
end;

{ The frame of the case's eleven numbers, three of them to choose, and its spelling. }
procedure AskFields(const title: string; substance, mass, heat: QWord; room: SizeUInt);
var
  area: TLineArea;
  refusal: QWord;
  other: string;
  i: Integer;
begin
  FillChar(area, SizeOf(area), Mark);
  refusal := yakepuhi_frame_from_fields(substance, 0, 1, 4, mass, 1400, 770, heat, 10000, 70, StandardAir, @area[0], room);
  WriteLn(title, ': ', Words[refusal]);
  if refusal <> 0 then
  begin
    PrintKept(area, 0);
    Exit;
  end;
  Write('  ');
  for i := 0 to High(Frame) do
    Write(HexStr(area[i], 2));
  other := 'another frame';
  if CompareByte(Frame, area, SizeOf(Frame)) = 0 then other := 'the same frame';
  WriteLn(', ', other);
  PrintKept(area, SizeOf(Frame));
  AskSpelling('its spelling', @yakepuhi_spell_frame, @area[0], SizeOf(Frame), SizeOf(area));
end;

procedure AskLineSpelling(const title, text: string; room: SizeUInt);
begin
  AskSpelling(title, @yakepuhi_spell_line, PByte(PChar(text)), Length(text), room);
end;

{ Frames from numbers, and spellings from bytes and from lines. }
procedure AskWriting;
begin
  AskFields('its frame from eleven numbers', 17, 8000000, 46400, SizeOf(TLineArea));
  AskFields('its frame with the table''s heat', 17, 8000000, 46200, SizeOf(TLineArea));
  AskFields('its frame with heat 0, an area of 22 bytes', 17, 8000000, 0, SizeOf(Frame));
  AskFields('its frame with 2^32 g more', 17, 8000000 + QWord(1) shl 32, 46400, SizeOf(TLineArea));
  AskFields('its frame, unlisted, without a heat', 0, 8000000, 0, SizeOf(TLineArea));
  AskFields('its frame, an area of 21 bytes', 17, 8000000, 46400, SizeOf(Frame) - 1);
  AskSpelling('its spelling, an area of 43 bytes', @yakepuhi_spell_frame, @Frame[0], SizeOf(Frame), LineCharacters - 1);
  AskLineSpelling('its line in small letters, spelled', '11000104007a1200057803020000b540000027100046', SizeOf(TLineArea));
  AskLineSpelling('its line with the table''s heat, spelled', '11000104007A1200057803020000B478000027100046', SizeOf(TLineArea));
  AskLineSpelling('its line with a G, spelled', '11000104007A1200057803020000B54000002710004G', SizeOf(TLineArea));
  AskLineSpelling('its line, spelled, an area of 43 bytes', Line, LineCharacters - 1);
end;

{ A frame, from the case's eleven numbers in air of a pressure, lent 24 zeros and a few more: byte 22 tells its length. }
procedure AskAirFields(const title: string; air: QWord; room: SizeUInt);
var
  area: TLongFrameArea;
  refusal: QWord;
  i, written: Integer;
begin
  FillChar(area, SizeOf(area), 0);
  refusal := yakepuhi_frame_from_fields(17, 0, 1, 4, 8000000, 1400, 770, 46400, 10000, 70, air, @area[0], room);
  written := 0;
  WriteLn(title, ': ', Words[refusal]);
  if refusal = 0 then
  begin
    written := FrameBytes;
    if area[FrameBytes] <> 0 then written := LongFrameBytes;
    Write('  ');
    for i := 0 to written - 1 do
      Write(HexStr(area[i], 2));
    WriteLn(', ', written, ' bytes');
  end;
  PrintZeros(area, written);
end;

{ A spelling, lent 48 zeros and a few more: character 44 tells its length. It is spelled again. }
procedure AskAirSpelling(const title: string; spell: TSpeller; given: PByte; count, room: SizeUInt);
var
  area, again: TLongLineArea;
  refusal: QWord;
  text, other: string;
  written: Integer;
begin
  FillChar(area, SizeOf(area), 0);
  FillChar(again, SizeOf(again), 0);
  refusal := spell(given, count, @area[0], room);
  WriteLn(title, ': ', Words[refusal]);
  if refusal <> 0 then
  begin
    PrintZeros(area, 0);
    Exit;
  end;
  written := LineCharacters;
  if area[LineCharacters] <> 0 then written := LongLineCharacters;
  SetString(text, PChar(@area[0]), written);
  WriteLn('  ', text, ', ', written, ' characters');
  PrintZeros(area, written);
  refusal := yakepuhi_spell_line(@area[0], written, @again[0], written);
  other := 'another';
  if CompareByte(area, again, SizeOf(area)) = 0 then other := 'the same';
  WriteLn('spelled again: ', Words[refusal], ', ', other);
end;

procedure AskAirLineSpelling(const title, text: string; room: SizeUInt);
begin
  AskAirSpelling(title, @yakepuhi_spell_line, PByte(PChar(text)), Length(text), room);
end;

{ Frames and spellings of both lengths. }
procedure AskAirWriting;
begin
  AskAirFields('its frame from eleven numbers, air of 80000 Pa', 8000, LongFrameBytes);
  AskAirFields('the same, air of 101300 Pa', StandardAir, LongFrameBytes);
  AskAirFields('the same, air of 80000 Pa, an area of 23 bytes', 8000, LongFrameBytes - 1);
  AskAirFields('the same, air of 101300 Pa, an area of 22 bytes', StandardAir, FrameBytes);
  AskAirFields('the same, air of 49990 Pa', LeastAir - 1, LongFrameBytes);
  AskAirFields('the same, air of 110010 Pa', GreatestAir + 1, LongFrameBytes);
  AskAirFields('the same, air of 80000 Pa and 2^16 units more', 8000 + QWord(1) shl 16, LongFrameBytes);
  AskAirSpelling('its spelling in mountain air', @yakepuhi_spell_frame, @MountainFrame[0], LongFrameBytes, LongLineCharacters);
  AskAirSpelling('its spelling with 101300 Pa written out', @yakepuhi_spell_frame, @FullFrame[0], LongFrameBytes, LongLineCharacters);
  AskAirLineSpelling('its line in mountain air, small letters, the table''s heat, spelled', '11000104007a1200057803020000b4780000271000461f40',
    LongLineCharacters);
  AskAirLineSpelling('its line with 101300 Pa written out, spelled, an area of 44 bytes', '11000104007a1200057803020000b5400000271000462792',
    LineCharacters);
  AskAirSpelling('its spelling in mountain air, an area of 47 bytes', @yakepuhi_spell_frame, @MountainFrame[0], LongFrameBytes, LongLineCharacters - 1);
end;

{ The case in mountain air, from all that takes a frame or a line, and with its standard air written out. }
procedure AskMountains;
var
  lower, upper, refusal: QWord;
begin
  lower := 0;
  upper := 0;
  Ask('the case in air of 80000 Pa', MountainLine, AnswerBytes + 3);
  AskFrame('the same from its 24 bytes', @MountainFrame[0], LongFrameBytes);
  Ask('the case with 101300 Pa written out', FullLine, AnswerBytes + 3);
  refusal := yakepuhi_overpressure(@MountainFrame[0], LongFrameBytes, @lower, @upper);
  WriteLn('its overpressure alone in mountain air: ', Words[refusal]);
  WriteLn('  ', lower, ' to ', upper, ' Pa');
  refusal := yakepuhi_impulse(@MountainFrame[0], LongFrameBytes, @lower, @upper);
  WriteLn('its impulse alone in mountain air: ', Words[refusal]);
  WriteLn('  ', lower, ' to ', upper, ' Pa s');
  { thinner air takes the near field farther }
  AskRules(@Frame[0], SizeOf(Frame), 1, 33);
  AskRules(@MountainFrame[0], LongFrameBytes, 1, 33);
  AskRing(MountainLine, @MountainFrame[0], LongFrameBytes, 28000);
  AskRing(MountainLine, @MountainFrame[0], LongFrameBytes, 1000);
  AskRing(MountainLine, @MountainFrame[0], LongFrameBytes, 180 * 8000);
  AskRing(MountainLine, @MountainFrame[0], LongFrameBytes, 180 * 8000 + 1);
  Ask('46 characters', Line + '27', AnswerBytes + 3);
  AskFrame('23 bytes', @MountainFrame[0], LongFrameBytes - 1);
  Ask('air of 49990 Pa', Line + '1387', AnswerBytes + 3);
  Ask('air of 110010 Pa', Line + '2AF9', AnswerBytes + 3);
  AskOld('its old line in mountain air', @MountainFrame[0], LongFrameBytes, OldCharacters + 4);
  AskOld('the same, an area of 115 bytes', @MountainFrame[0], LongFrameBytes, OldCharacters - 1);
  AskOld('its old line with 101300 Pa written out', @FullFrame[0], LongFrameBytes, OldCharacters + 4);
  AskAirWriting;
end;

var
  lower, upper, refusal: QWord;
  i: Integer;
begin
  lower := 0;
  upper := 0;
  Ask('a case', Line, AnswerBytes + 3);
  AskFrame('the same from its bytes', @Frame[0], SizeOf(Frame));
  refusal := yakepuhi_overpressure(@Frame[0], SizeOf(Frame), @lower, @upper);
  WriteLn('its overpressure alone: ', Words[refusal]);
  WriteLn('  ', lower, ' to ', upper, ' Pa');
  refusal := yakepuhi_impulse(@Frame[0], SizeOf(Frame), @lower, @upper);
  WriteLn('its impulse alone: ', Words[refusal]);
  WriteLn('  ', lower, ' to ', upper, ' Pa s');
  AskRules(@Frame[0], SizeOf(Frame), 1, 30);
  AskRules(@Frame[0], SizeOf(Frame), 1, 100);
  AskRules(@Frame[0], SizeOf(Frame), 2, 50);
  AskRules(@Frame[0], SizeOf(Frame), 4, 50);
  AskRules(@Frame[0], SizeOf(Frame), 4, 100);
  AskRules(@Frame[0], SizeOf(Frame), 4, 500);
  AskRules(@Frame[0], SizeOf(Frame), 4, 10000);
  AskRing(Line, @Frame[0], SizeOf(Frame), 28000);
  AskRing(Line, @Frame[0], SizeOf(Frame), 5000);
  AskRing(Line, @Frame[0], SizeOf(Frame), 1000);
  AskRing(Line, @Frame[0], SizeOf(Frame), GreatestThreshold);
  AskRing(Line, @Frame[0], SizeOf(Frame), GreatestThreshold + 1);
  for i := Low(Wrong) to High(Wrong) do
    Ask(Wrong[i, 0], Wrong[i, 1], AnswerBytes + 3);
  Ask('an area of 76 bytes', Line, AnswerBytes - 1);
  AskOld('its old line', @Frame[0], SizeOf(Frame), OldCharacters + 4);
  AskOld('its old line, an area of 115 bytes', @Frame[0], SizeOf(Frame), OldCharacters - 1);
  AskOldLine('an old line with the tag 7 for 6',
    '11000104' + '0140BF400000000000' + '024061800000000000' + '034053400000000000' + '044047333333333333' + '054059000000000000' + '074051800000000000');
  AskOldLine('an old line with a distance of -100 m',
    '11000104' + '0140BF400000000000' + '024061800000000000' + '034053400000000000' + '044047333333333333' + '05C059000000000000' + '064051800000000000');
  AskWriting;
  AskMountains;
end.
