MODULE Printer;  (* makes pages out of lines, as a file that the spooler takes *)

  IMPORT Files, Fonts, Spooler, Log;

  CONST
    PageHeight* = 1100; PageWidth* = 780; margin = 60;
    font = 1X; line = 2X; page = 3X;  (* instructions of the page file *)

  VAR
    pages*: INTEGER;
    file: Files.File;
    w: Files.Rider;
    current: Fonts.Font;
    y: INTEGER;

  PROCEDURE Open*(f: Fonts.Font);
  BEGIN file := Files.New("Printer.Pages"); Files.Set(w, file, 0);
    pages := 0; y := PageHeight - margin; current := f;
    Files.Write(w, font); Files.WriteString(w, f.name)
  END Open;

  PROCEDURE Page*;
  BEGIN Files.Write(w, page); INC(pages); y := PageHeight - margin
  END Page;

  PROCEDURE UseFont*(f: Fonts.Font);
  BEGIN
    IF f # current THEN Files.Write(w, font); Files.WriteString(w, f.name); current := f END
  END UseFont;

  PROCEDURE Line*(s: ARRAY OF CHAR);
  BEGIN
    IF y < margin + current.height THEN Page END;
    Files.Write(w, line); Files.WriteString(w, s); DEC(y, current.height)
  END Line;

  PROCEDURE Width*(s: ARRAY OF CHAR): INTEGER;
    VAR i, sum: INTEGER;
  BEGIN i := 0; sum := 0;
    WHILE (i < LEN(s)) & (s[i] # 0X) DO INC(sum, Fonts.Width(current, s[i])); INC(i) END
    RETURN sum
  END Width;

  PROCEDURE Close*(copies: INTEGER);
  BEGIN Page; Files.Flush(w); Spooler.Enqueue(file, copies);
    Log.String("printing, "); Log.Int(pages); Log.String(" pages, waiting: ");
    Log.Int(Spooler.Waiting()); Log.Line
  END Close;

BEGIN pages := 0; file := NIL; current := NIL
END Printer.
