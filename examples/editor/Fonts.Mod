MODULE Fonts;  (* fonts, read from files once and kept *)

  IMPORT SYSTEM, Files;

  CONST
    tag = 0DBH;  (* first byte of a font's file *)
    RasterLength = 4096;

  TYPE
    Font* = POINTER TO FontDesc;
    FontDesc* = RECORD
        name*: Files.Name;
        height*, minY*: INTEGER;
        next: Font;
        width, place: ARRAY 128 OF BYTE;  (* place: where the pattern begins, in steps of 32 bytes *)
        raster: ARRAY RasterLength OF BYTE
      END;

  VAR
    Default*: Font;
    root: Font;  (* those that were read *)

  PROCEDURE Load(f: Files.File): Font;
    VAR font: Font; r: Files.Rider; x: BYTE; i: INTEGER;
  BEGIN Files.Set(r, f, 0); Files.ReadByte(r, x);
    IF x # tag THEN font := NIL
    ELSE NEW(font);
      Files.ReadByte(r, x); font.height := x;
      Files.ReadByte(r, x); font.minY := -x;
      FOR i := 0 TO 127 DO Files.ReadByte(r, font.width[i]); Files.ReadByte(r, font.place[i]) END;
      i := 0;
      WHILE ~r.eof & (i < RasterLength) DO Files.ReadByte(r, font.raster[i]); INC(i) END
    END
    RETURN font
  END Load;

  PROCEDURE This*(name: ARRAY OF CHAR): Font;  (* the default font if there is none of this name *)
    VAR font: Font; f: Files.File;
  BEGIN font := root;
    WHILE (font # NIL) & (font.name # name) DO font := font.next END;
    IF font = NIL THEN
      f := Files.Old(name);
      IF f # NIL THEN font := Load(f) END;
      IF font = NIL THEN font := Default
      ELSE font.name := name; font.next := root; root := font
      END
    END
    RETURN font
  END This;

  PROCEDURE Width*(font: Font; ch: CHAR): INTEGER;
    RETURN font.width[ORD(ch) MOD 128]
  END Width;

  PROCEDURE Pattern*(font: Font; ch: CHAR): INTEGER;  (* its address *)
    RETURN SYSTEM.ADR(font.raster[font.place[ORD(ch) MOD 128] * 32 MOD RasterLength])
  END Pattern;

BEGIN root := NIL; Default := NIL; Default := This("Oberon10.Fnt")
END Fonts.
