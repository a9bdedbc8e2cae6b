MODULE Spooler;  (* the queue of files for the printer, which stands at another machine *)

  IMPORT Net, Files, Kernel;

  CONST
    server = "printer";
    rest = 60000;  (* milliseconds between two calls to a server that doesn't answer *)

  TYPE
    Job = POINTER TO JobDesc;
    JobDesc = RECORD file: Files.File; copies: INTEGER; next: Job END;

  VAR
    first, last: Job;
    waiting, failed: INTEGER;  (* failed: when the server last didn't answer, else 0 *)

  PROCEDURE Transfer(job: Job; VAR done: BOOLEAN);
    VAR c: Net.Connection; r: Files.Rider; x: BYTE;
  BEGIN c := Net.Open(server); Net.SendInt(c, job.copies); Net.SendInt(c, Files.Length(job.file));
    Files.Set(r, job.file, 0); Files.ReadByte(r, x);
    WHILE c.open & ~r.eof DO Net.Send(c, x); Files.ReadByte(r, x) END;
    Net.Receive(c, x); done := c.open & (x = 0); Net.Close(c)
  END Transfer;

  PROCEDURE Step*;  (* sends the first file of the queue *)
    VAR done: BOOLEAN;
  BEGIN
    IF (first # NIL) & ((failed = 0) OR (Kernel.Time() - failed > rest)) THEN
      Transfer(first, done);
      IF done THEN first := first.next; DEC(waiting); failed := 0 ELSE failed := Kernel.Time() END
    END
  END Step;

  PROCEDURE Enqueue*(f: Files.File; copies: INTEGER);
    VAR job: Job;
  BEGIN NEW(job); job.file := f; job.copies := copies; job.next := NIL;
    IF first = NIL THEN first := job ELSE last.next := job END;
    last := job; INC(waiting); Step
  END Enqueue;

  PROCEDURE Waiting*(): INTEGER;
    RETURN waiting
  END Waiting;

BEGIN first := NIL; last := NIL; waiting := 0; failed := 0
END Spooler.
