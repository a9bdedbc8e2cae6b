MODULE Net;  (* connections with other machines, a byte at a time *)

  IMPORT SYSTEM, Kernel;

  CONST
    NameLength* = 16;
    timeout = 2000;  (* milliseconds *)
    data = -56; status = -52;  (* addresses of the device *)
    received = 0; sent = 1;  (* bits of its status *)
    call = 10X; hangUp = 11X;

  TYPE
    Connection* = POINTER TO ConnectionDesc;
    ConnectionDesc* = RECORD
        open*: BOOLEAN;  (* FALSE after a failure too *)
        machine: ARRAY NameLength OF CHAR
      END;

  VAR failures*: INTEGER;

  PROCEDURE Wait(c: Connection; bit: INTEGER);
    VAR start: INTEGER;
  BEGIN start := Kernel.Time();
    WHILE c.open & ~SYSTEM.BIT(status, bit) DO
      IF Kernel.Time() - start > timeout THEN
        c.open := FALSE; INC(failures); Kernel.Trap(Kernel.noConnection)
      END
    END
  END Wait;

  PROCEDURE Send*(c: Connection; x: BYTE);
  BEGIN Wait(c, sent);
    IF c.open THEN SYSTEM.PUT(data, x) END
  END Send;

  PROCEDURE Receive*(c: Connection; VAR x: BYTE);
  BEGIN Wait(c, received);
    IF c.open THEN SYSTEM.GET(data, x) ELSE x := 0 END
  END Receive;

  PROCEDURE SendString*(c: Connection; s: ARRAY OF CHAR);
    VAR i: INTEGER;
  BEGIN i := 0;
    WHILE (i < LEN(s)) & (s[i] # 0X) DO Send(c, ORD(s[i])); INC(i) END;
    Send(c, 0)
  END SendString;

  PROCEDURE SendInt*(c: Connection; n: INTEGER);
    VAR k: INTEGER;
  BEGIN
    FOR k := 0 TO 24 BY 8 DO Send(c, ASR(n, k) MOD 100H) END
  END SendInt;

  PROCEDURE ReceiveInt*(c: Connection; VAR n: INTEGER);
    VAR x: BYTE; k: INTEGER;
  BEGIN n := 0;
    FOR k := 0 TO 24 BY 8 DO Receive(c, x); INC(n, LSL(x, k)) END
  END ReceiveInt;

  PROCEDURE Open*(machine: ARRAY OF CHAR): Connection;
    VAR c: Connection;
  BEGIN NEW(c); c.machine := machine; c.open := TRUE; Send(c, ORD(call)); SendString(c, machine)
    RETURN c
  END Open;

  PROCEDURE Close*(c: Connection);
  BEGIN
    IF c.open THEN Send(c, ORD(hangUp)); c.open := FALSE END
  END Close;

BEGIN failures := 0
END Net.
