{ A study sheet from Free Pascal: the receptors of one yard are added, withdrawn and read and the gaps closed, with what is refused; then a sheet
  is filled, a third one has its totals followed, and a fourth holds cases in mountain air. Each step prints its verdict and what the sheet holds
  then, with its totals, or what a refusal left as it was. }
program sheet;

{$mode objfpc}{$H+}
{$linklib linked, static}
{$linklib c}

const
  FrameBytes = 22;
  LongFrameBytes = 24;
  SheetBytes = 2048;
  Places = 64;
  Whole = SheetBytes + 3;
  Room = FrameBytes + 3;
  Shown = 4;
  Mark = $EE;
  { air pressures in units of 10 Pa }
  StandardAir = 10130;
  LeastAir = 5000;
  GreatestAir = 11000;
  { 8 t of propane on the ground, 100 m away }
  Propane: array[0..FrameBytes - 1] of Byte = ($11, 0, 1, 4, 0, $7A, $12, 0, 5, $78, 3, 2, 0, 0, $B5, $40, 0, 0, $27, $10, 0, $46);

type
  TFrame = array[0..FrameBytes - 1] of Byte;
  TLongFrame = array[0..LongFrameBytes - 1] of Byte;
  TSheet = array[0..Whole - 1] of Byte;
  TArea = array[0..Room - 1] of Byte;

{ The promises of these are in yakepuhi.h. }
function yakepuhi_overpressure(frame: PByte; frameLength: SizeUInt; lower, upper: PQWord): QWord; cdecl; external;
function yakepuhi_sheet_add(sheet: PByte; sheetLength: SizeUInt; frame: PByte; frameLength: SizeUInt; place: PQWord): QWord; cdecl; external;
function yakepuhi_sheet_withdraw(sheet: PByte; sheetLength: SizeUInt; place: QWord): QWord; cdecl; external;
function yakepuhi_sheet_close(sheet: PByte; sheetLength: SizeUInt): QWord; cdecl; external;
function yakepuhi_sheet_case(sheet: PByte; sheetLength: SizeUInt; place: QWord; area: PByte; areaLength: SizeUInt): QWord; cdecl; external;
function yakepuhi_sheet_totals(sheet: PByte; sheetLength: SizeUInt; count, greatest, place: PQWord): QWord; cdecl; external;

var
  { the sheet, and marks behind it }
  Study: TSheet;

procedure EmptySheet;
begin
  FillChar(Study[0], SheetBytes, 0);
  FillChar(Study[SheetBytes], Whole - SheetBytes, Mark);
end;

{ The refusals that come here. }
function WordOf(refusal: QWord): string;
begin
  case refusal of
    0: WordOf := 'accepted';
    5: WordOf := 'quantity';
    7: WordOf := 'beyond';
    8: WordOf := 'space';
    17: WordOf := 'full';
    18: WordOf := 'vacant';
    else WordOf := 'another refusal';
  end;
end;

{ 8 t of propane on the ground, and a receptor so many metres away, in standard air. }
function CaseAt(metres: LongWord): TFrame;
var
  i: Integer;
begin
  Result := Propane;
  for i := 0 to 3 do
    Result[16 + i] := Byte(100 * metres shr (24 - 8 * i));
end;

function MetresOf(const frame: array of Byte): LongWord;
begin
  MetresOf := (LongWord(frame[16]) shl 24 or LongWord(frame[17]) shl 16 or LongWord(frame[18]) shl 8 or frame[19]) div 100;
end;

{ How long a frame is that was written over one byte throughout: 0 or the mark, of which neither begins a permitted air pressure. }
function LengthOf(const area: array of Byte; lent: Byte): Integer;
begin
  if area[FrameBytes] = lent then LengthOf := FrameBytes else LengthOf := LongFrameBytes;
end;

{ The air pressure in units of 10 Pa. }
function AirOf(const frame: TLongFrame; count: Integer): LongWord;
begin
  if count = FrameBytes then AirOf := StandardAir else AirOf := frame[22] * 256 + frame[23];
end;

function UpperOf(const frame: TLongFrame; count: Integer): QWord;
var
  lower, upper: QWord;
begin
  lower := 0;
  upper := 0;
  yakepuhi_overpressure(@frame[0], count, @lower, @upper);
  UpperOf := upper;
end;

{ The totals, as a title block has them; a line more where the greatest is not that of the frames read back. }
procedure PrintTotals(ofFrames: QWord);
var
  count, greatest, place, refusal: QWord;
begin
  count := Mark;
  greatest := Mark;
  place := Mark;
  refusal := yakepuhi_sheet_totals(@Study[0], Whole, @count, @greatest, @place);
  Write('  totals        ', count);
  if count = 1 then Write(' case') else Write(' cases');
  Write(', greatest ', greatest, ' Pa at ');
  if place = 0 then WriteLn('no place') else WriteLn('place ', place);
  if (refusal <> 0) or (greatest <> ofFrames) then
    WriteLn('  not the       ', ofFrames, ' Pa of the frames');
end;

{ How many cases the sheet holds, the first ones and the last with their places, and the totals. }
procedure PrintSheet;
var
  metres, airs, at: array[0..Places - 1] of LongWord;
  frame: TLongFrame;
  place: LongWord;
  upper, greatest: QWord;
  i, held, count: Integer;
begin
  held := 0;
  greatest := 0;
  for place := 1 to Places do
  begin
    FillChar(frame, SizeOf(frame), 0);
    if yakepuhi_sheet_case(@Study[0], Whole, place, @frame[0], SizeOf(frame)) = 0 then
    begin
      count := LengthOf(frame, 0);
      at[held] := place;
      airs[held] := AirOf(frame, count);
      metres[held] := MetresOf(frame);
      Inc(held);
      upper := UpperOf(frame, count);
      if upper > greatest then greatest := upper;
    end;
  end;
  Write('  held          ', held, ' of ', Places);
  for i := 0 to held - 1 do
    if (i < Shown) or (i = held - 1) then
    begin
      if i = 0 then Write(': ') else Write(', ');
      Write(metres[i], ' m');
      if airs[i] <> StandardAir then Write(' in ', 10 * airs[i], ' Pa');
      Write(' at ', at[i]);
    end;
  WriteLn;
  PrintTotals(greatest);
end;

function KeptMarks(const bytes: array of Byte; from: Integer): Integer;
var
  i: Integer;
begin
  Result := 0;
  for i := from to High(bytes) do
    if bytes[i] = Mark then Inc(Result);
end;

{ The verdict on a step; where fewer bytes are told than a sheet has, their number too. }
procedure PrintVerdict(told: SizeUInt; refusal: QWord);
begin
  if told < SheetBytes then Write(', a sheet of ', told, ' bytes');
  WriteLn(': ', WordOf(refusal));
end;

{ How many of the sheet's bytes and of the marks behind it are as they were. }
procedure PrintKept(const before: TSheet);
var
  i, kept: Integer;
begin
  kept := 0;
  for i := 0 to High(before) do
    if Study[i] = before[i] then Inc(kept);
  WriteLn('  ', kept, ' bytes of the sheet kept');
end;

{ What the sheet holds, or what a refusal left of it. }
procedure PrintAfter(refusal: QWord; const before: TSheet);
begin
  if refusal = 0 then PrintSheet else PrintKept(before);
end;

{ Adds a case given as a frame. }
procedure AddFrame(const name: string; const frame: array of Byte; told: SizeUInt);
var
  before: TSheet;
  place, refusal: QWord;
begin
  before := Study;
  place := Mark;
  refusal := yakepuhi_sheet_add(@Study[0], told, @frame[0], Length(frame), @place);
  Write('add ', name, ', ', MetresOf(frame), ' m away');
  PrintVerdict(told, refusal);
  if refusal = 0 then
    WriteLn('  place         ', place)
  else if place = Mark then
    WriteLn('  the number kept')
  else
    WriteLn('  the number lost');
  PrintAfter(refusal, before);
end;

{ Adds the case of a receptor in standard air. }
procedure Add(const name: string; metres: LongWord; told: SizeUInt);
begin
  AddFrame(name, CaseAt(metres), told);
end;

{ Adds the case of a receptor with its air pressure, in units of 10 Pa, written out. }
procedure AddInAir(const name: string; metres: LongWord; air: Word);
var
  shorter: TFrame;
  frame: TLongFrame;
begin
  shorter := CaseAt(metres);
  Move(shorter, frame, FrameBytes);
  frame[22] := Hi(air);
  frame[23] := Lo(air);
  AddFrame(name, frame, Whole);
end;

procedure Withdraw(place: QWord; told: SizeUInt);
var
  before: TSheet;
  refusal: QWord;
begin
  before := Study;
  refusal := yakepuhi_sheet_withdraw(@Study[0], told, place);
  Write('withdraw place ', place);
  PrintVerdict(told, refusal);
  PrintAfter(refusal, before);
end;

procedure CloseGaps(told: SizeUInt);
var
  before: TSheet;
  refusal: QWord;
begin
  before := Study;
  refusal := yakepuhi_sheet_close(@Study[0], told);
  Write('close the gaps');
  PrintVerdict(told, refusal);
  PrintAfter(refusal, before);
end;

{ Reads the case at a place, and asks for the overpressure of its frame. }
procedure ReadCase(place: QWord; told, space: SizeUInt);
var
  area: TArea;
  lower, upper, refusal: QWord;
  first: Integer;
begin
  FillChar(area, SizeOf(area), Mark);
  refusal := yakepuhi_sheet_case(@Study[0], told, place, @area[0], space);
  Write('read place ', place, ' into ', space, ' bytes');
  PrintVerdict(told, refusal);
  first := 0;
  if refusal = 0 then first := LengthOf(area, Mark);
  lower := 0;
  upper := 0;
  if (refusal = 0) and (yakepuhi_overpressure(@area[0], first, @lower, @upper) = 0) then
    WriteLn('  overpressure  ', lower, ' to ', upper, ' Pa, ', MetresOf(area), ' m away');
  WriteLn('  ', KeptMarks(area, first), ' bytes of the area kept');
end;

{ Asks for the totals, by which the sheet is not written either way. }
procedure Totals(told: SizeUInt);
var
  before: TSheet;
  count, greatest, place, refusal: QWord;
begin
  before := Study;
  count := Mark;
  greatest := Mark;
  place := Mark;
  refusal := yakepuhi_sheet_totals(@Study[0], told, @count, @greatest, @place);
  Write('totals');
  PrintVerdict(told, refusal);
  if refusal = 0 then
    PrintSheet
  else if (count = Mark) and (greatest = Mark) and (place = Mark) then
    WriteLn('  the three numbers kept')
  else
    WriteLn('  the three numbers lost');
  PrintKept(before);
end;

{ The receptors of a yard, as in docs/sheets.md. }
procedure ShowYard;
begin
  Add('the pump house', 100, Whole);
  Add('the control room', 150, Whole);
  Add('the gate', 300, Whole);
  Withdraw(2, Whole);
  Add('the workshop', 220, Whole);
  ReadCase(2, Whole, Room);
  Withdraw(2, Whole);
  Withdraw(4, Whole);
  Add('the workshop again', 250, Whole);
  CloseGaps(Whole);
  ReadCase(2, Whole, Room);
  Add('the town', 10000, Whole);
end;

{ The same sheet asked for what it refuses: 7 comes before 8, and 18 between the sheet's 8 and the area's. }
procedure ShowRefusals;
begin
  Add('the gate', 300, SheetBytes - 1);
  Add('the town', 10000, SheetBytes - 1);
  Withdraw(0, Whole);
  Withdraw(Places + 1, Whole);
  Withdraw(1, SheetBytes - 1);
  CloseGaps(SheetBytes - 1);
  ReadCase(1, SheetBytes - 1, Room);
  ReadCase(4, Whole, FrameBytes - 1);
  ReadCase(1, Whole, FrameBytes - 1);
  ReadCase(1, SheetBytes, FrameBytes);
end;

{ A sheet that is filled with a receptor every 10 m; a gap makes no room until it is closed. }
procedure ShowFull;
var
  frame: TFrame;
  place: QWord;
  n: LongWord;
  right: Integer;
begin
  right := 0;
  for n := 1 to Places do
  begin
    frame := CaseAt(10 * n);
    place := Mark;
    if (yakepuhi_sheet_add(@Study[0], Whole, @frame[0], SizeOf(frame), @place) = 0) and (place = n) then Inc(right);
  end;
  WriteLn('add ', Places, ' receptors, 10 m apart: ', right, ' at the next place');
  PrintSheet;
  Add('one more', 650, Whole);
  Add('the town', 10000, Whole);
  Withdraw(1, Whole);
  Add('one more', 650, Whole);
  CloseGaps(Whole);
  Add('one more', 650, Whole);
  Add('another', 660, Whole);
end;

{ A sheet for a title block: of two equal figures the first place is shown, closing moves it, and when both are gone the next one is the greatest. }
procedure ShowTotals;
begin
  Totals(SheetBytes);
  Add('the gate', 300, Whole);
  Add('the pump house', 100, Whole);
  Add('the boiler house', 100, Whole);
  Add('the control room', 150, Whole);
  Withdraw(1, Whole);
  CloseGaps(Whole);
  Withdraw(1, Whole);
  Withdraw(2, Whole);
  Totals(SheetBytes - 1);
  Totals(SheetBytes);
  Withdraw(3, Whole);
end;

{ A sheet of both lengths; a case in standard air is read in 22 bytes, however it was added. }
procedure ShowMountains;
begin
  Add('the pump house', 100, Whole);
  AddInAir('the pump house in air of 80000 Pa', 100, 8000);
  AddInAir('the pump house with 101300 Pa written out', 100, StandardAir);
  AddInAir('the pump house in air of 110000 Pa', 100, GreatestAir);
  ReadCase(1, Whole, Room);
  ReadCase(2, Whole, Room);
  ReadCase(3, Whole, Room);
  ReadCase(2, Whole, LongFrameBytes);
  ReadCase(2, Whole, LongFrameBytes - 1);
  ReadCase(3, Whole, FrameBytes);
  Withdraw(1, Whole);
  Withdraw(4, Whole);
  CloseGaps(Whole);
  AddInAir('the pump house in air of 49990 Pa', 100, LeastAir - 1);
end;

begin
  EmptySheet;
  ShowYard;
  ShowRefusals;
  WriteLn(KeptMarks(Study, SheetBytes), ' bytes behind the sheet kept');
  EmptySheet;
  ShowFull;
  WriteLn(KeptMarks(Study, SheetBytes), ' bytes behind the sheet kept');
  EmptySheet;
  ShowTotals;
  WriteLn(KeptMarks(Study, SheetBytes), ' bytes behind the sheet kept');
  EmptySheet;
  ShowMountains;
  WriteLn(KeptMarks(Study, SheetBytes), ' bytes behind the sheet kept');
end.
