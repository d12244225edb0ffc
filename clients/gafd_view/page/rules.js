// What each finding of the check means, in the words of docs/MANUAL.md, and what the page's own means.

export const RULES = {
  NoRefdes: "the part is not in the netlist, nor in the bill; of a block, no part below it is",
  DuplicateRefdes: "two parts are one: the netlist joins both drawings to the same pins",
  DuplicateSlot: "two drawn gates are one gate on the board",
  BadSlot: "the gate has the pin numbers of its symbol, most often those of slot 1",
  UnusedSlot: "the inputs of that gate are open, and in CMOS may oscillate",
  UnknownPintype: "the check knows nothing of this pin, so a conflict may stay hidden",
  Conflict: "the pins may drive against each other",
  OnePin: "the wire leads from one pin to nowhere",
  UnconnectedPin: "nothing is joined to the pin",
  NotDriven: "inputs without anything that gives them a level",
  PinOnTwoNets: "one pin is in two nets: the board joins both, or loses one",
  MissingSymbol: "the part has no pins, so none of its wires is in the netlist",
  MissingSource: "the block is empty: its parts are not on the board",
  SourceLoop: "the block is empty",
  Unreached: "the parts of this sheet are not on the board",
  BadNet: "the value is ignored: most often a supply pin is in no net",
  SameText: "two nets or two parts print the same, so a program that reads the netlist joins them",
  NoConnection: "a pin that is marked as open is joined to another",
  Unnumbered: "all parts R? are one part in the netlist",
  RailsMeet: "two global names are on one net: two supplies, or a supply and the ground, are joined",
};
