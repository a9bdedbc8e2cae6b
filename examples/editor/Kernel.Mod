MODULE Kernel;  (* the bottom of the system: sectors of the disk, clock and traps *)

  IMPORT SYSTEM;

  CONST
    SectorLength* = 1024;
    Sectors = 65536;  (* of the disk *)
    diskFull* = 1; badSector* = 2; noConnection* = 3;  (* numbers of traps *)
    clock = -64; diskCommand = -48; diskData = -44;  (* addresses of devices *)
    reading = 1; writing = 2;

  TYPE
    Sector* = ARRAY SectorLength OF BYTE;
    TrapHandler* = PROCEDURE (number: INTEGER);

  VAR
    used*: INTEGER;  (* number of sectors in use *)
    map: ARRAY Sectors DIV 32 OF SET;
    handler: TrapHandler;
    i: INTEGER;

  PROCEDURE Time*(): INTEGER;  (* in milliseconds *)
    VAR now: INTEGER;
  BEGIN SYSTEM.GET(clock, now)
    RETURN now
  END Time;

  PROCEDURE Install*(h: TrapHandler);
  BEGIN handler := h
  END Install;

  PROCEDURE Trap*(number: INTEGER);
  BEGIN
    IF handler # NIL THEN handler(number) END
  END Trap;

  (* The disk takes a command with a sector's number in its lower 24 bits, then its bytes. *)
  PROCEDURE Select(command, sector: INTEGER);
  BEGIN
    IF (sector < 0) OR (sector >= Sectors) THEN Trap(badSector) END;
    SYSTEM.PUT(diskCommand, command * 1000000H + sector)
  END Select;

  PROCEDURE GetSector*(sector: INTEGER; VAR dst: Sector);
    VAR i, x: INTEGER;
  BEGIN Select(reading, sector);
    FOR i := 0 TO SectorLength - 1 DO SYSTEM.GET(diskData, x); dst[i] := x MOD 100H END
  END GetSector;

  PROCEDURE PutSector*(sector: INTEGER; src: Sector);
    VAR i, x: INTEGER;
  BEGIN Select(writing, sector);
    FOR i := 0 TO SectorLength - 1 DO x := src[i]; SYSTEM.PUT(diskData, x) END
  END PutSector;

  (* The next free sector behind the hint, so that those of a file lie close together. *)
  PROCEDURE AllocSector*(hint: INTEGER; VAR sector: INTEGER);
    VAR s: INTEGER;
  BEGIN s := (hint + 1) MOD Sectors;
    WHILE (s # hint) & (s MOD 32 IN map[s DIV 32]) DO s := (s + 1) MOD Sectors END;
    IF s = hint THEN sector := 0; Trap(diskFull)
    ELSE INCL(map[s DIV 32], s MOD 32); INC(used); sector := s
    END
  END AllocSector;

  PROCEDURE FreeSector*(sector: INTEGER);
  BEGIN
    IF sector MOD 32 IN map[sector DIV 32] THEN EXCL(map[sector DIV 32], sector MOD 32); DEC(used) END
  END FreeSector;

BEGIN used := 0; handler := NIL;
  FOR i := 0 TO Sectors DIV 32 - 1 DO map[i] := {} END
END Kernel.
