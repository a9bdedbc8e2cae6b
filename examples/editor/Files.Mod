MODULE Files;  (* files, and riders that read and write them through a buffer of one sector *)

  IMPORT Kernel;

  CONST
    NameLength* = 32;
    MaxSectors = 512;  (* of one file *)

  TYPE
    Name* = ARRAY NameLength OF CHAR;

    File* = POINTER TO FileDesc;
    FileDesc = RECORD
        next: File;
        name: Name;
        length, sectors: INTEGER;
        table: ARRAY MaxSectors OF INTEGER
      END;

    Rider* = RECORD
        eof*: BOOLEAN;
        file: File;
        pos, index: INTEGER;  (* the sector with this index is in buf, none if -1 *)
        dirty: BOOLEAN;
        buf: Kernel.Sector
      END;

  VAR root: File;  (* the directory *)

  PROCEDURE Old*(name: ARRAY OF CHAR): File;
    VAR f: File;
  BEGIN f := root;
    WHILE (f # NIL) & (f.name # name) DO f := f.next END
    RETURN f
  END Old;

  PROCEDURE New*(name: ARRAY OF CHAR): File;
    VAR f: File; i: INTEGER;
  BEGIN NEW(f); f.next := NIL; f.length := 0; f.sectors := 0; i := 0;
    WHILE (i < NameLength - 1) & (i < LEN(name)) & (name[i] # 0X) DO f.name[i] := name[i]; INC(i) END;
    f.name[i] := 0X
    RETURN f
  END New;

  PROCEDURE Delete*(name: ARRAY OF CHAR);
    VAR f, last: File; i: INTEGER;
  BEGIN f := root; last := NIL;
    WHILE (f # NIL) & (f.name # name) DO last := f; f := f.next END;
    IF f # NIL THEN
      IF last = NIL THEN root := f.next ELSE last.next := f.next END;
      FOR i := 0 TO f.sectors - 1 DO Kernel.FreeSector(f.table[i]) END
    END
  END Delete;

  PROCEDURE Register*(f: File);
  BEGIN Delete(f.name); f.next := root; root := f
  END Register;

  PROCEDURE Length*(f: File): INTEGER;
    RETURN f.length
  END Length;

  PROCEDURE Set*(VAR r: Rider; f: File; pos: INTEGER);
  BEGIN r.file := f; r.pos := pos; r.index := -1; r.dirty := FALSE; r.eof := FALSE
  END Set;

  PROCEDURE Flush*(VAR r: Rider);
  BEGIN
    IF r.dirty THEN Kernel.PutSector(r.file.table[r.index], r.buf); r.dirty := FALSE END
  END Flush;

  PROCEDURE Grow(f: File);
    VAR hint: INTEGER;
  BEGIN ASSERT(f.sectors < MaxSectors);
    IF f.sectors = 0 THEN hint := 0 ELSE hint := f.table[f.sectors - 1] END;
    Kernel.AllocSector(hint, f.table[f.sectors]); INC(f.sectors)
  END Grow;

  PROCEDURE Fill(VAR r: Rider);  (* brings the sector at r.pos into the buffer *)
    VAR k: INTEGER;
  BEGIN k := r.pos DIV Kernel.SectorLength;
    IF k # r.index THEN Flush(r);
      WHILE r.file.sectors <= k DO Grow(r.file) END;
      Kernel.GetSector(r.file.table[k], r.buf); r.index := k
    END
  END Fill;

  PROCEDURE ReadByte*(VAR r: Rider; VAR x: BYTE);
  BEGIN
    IF r.pos < r.file.length THEN Fill(r); x := r.buf[r.pos MOD Kernel.SectorLength]; INC(r.pos)
    ELSE x := 0; r.eof := TRUE
    END
  END ReadByte;

  PROCEDURE WriteByte*(VAR r: Rider; x: BYTE);
  BEGIN Fill(r); r.buf[r.pos MOD Kernel.SectorLength] := x; r.dirty := TRUE; INC(r.pos);
    IF r.pos > r.file.length THEN r.file.length := r.pos END
  END WriteByte;

  PROCEDURE Read*(VAR r: Rider; VAR ch: CHAR);
    VAR x: BYTE;
  BEGIN ReadByte(r, x); ch := CHR(x)
  END Read;

  PROCEDURE Write*(VAR r: Rider; ch: CHAR);
  BEGIN WriteByte(r, ORD(ch))
  END Write;

  PROCEDURE WriteString*(VAR r: Rider; s: ARRAY OF CHAR);  (* with its 0X *)
    VAR i: INTEGER;
  BEGIN i := 0;
    WHILE (i < LEN(s)) & (s[i] # 0X) DO Write(r, s[i]); INC(i) END;
    Write(r, 0X)
  END WriteString;

BEGIN root := NIL
END Files.
