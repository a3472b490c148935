type = internal
  waits-for.d = reader
