/** A call that has no result. */
export class Refused extends Error {
  /** Why: a name such as `badScenario`, `identifier` or `tooLong`. */
  reason: string;
  /** The place of the fault in a frame's text or in a trace, in bytes. */
  place?: number;
  /** The lines of the levels before a bad byte of a trace. */
  lines?: string;
  /** What is wrong in a scenario or a network: the number of the field, of its port or message, and of its element. */
  field?: number;
  number?: number;
  element?: number;
  /** What the field of a network must be. */
  words?: string;
}

/** The fields of levels, as far as they are known. */
export interface Marks {
  /** The number of each level's field. */
  fields: Uint8Array;
  /** 1 for a stuff bit, otherwise 0. */
  stuffed: Uint8Array;
}

/** What a port of a scenario did in a bit time. docs/NAMES.md lists the numbers of phases and events. */
export interface PortTime {
  /** The transmit and the receive error counter before the bit time. */
  transmit: number;
  receive: number;
  /** The number of its phase before the bit time. */
  phase: number;
  /** Whether it was the transmitter of the frame on the bus. */
  sender: boolean;
  /** The levels that it drove and sampled: 0 is dominant. */
  drives: number;
  samples: number;
  /** The number of the event; 0 is none. */
  event: number;
}

/** The reference model. One call runs at a time. */
export interface Riddlesage {
  /** The levels that the transmitter of a frame drives, such as `S 123 D 2 aa55`: 0 is dominant. */
  encode(text: string): Uint8Array;
  /** The fields of levels that begin with a start of frame, each 0 or 1. */
  marks(levels: Uint8Array): Marks;
  /** The frames and faults of a trace, as `canbit decode` prints them. */
  decode(text: string): string;
  /** The report of a scenario in TOML, as `canbit run` prints it. */
  run(text: string): string;
  /** What a port of a scenario did in each bit time; the first port is 0. */
  portTimes(text: string, port: number): PortTime[];
  /** The result for a network in TOML, as `canplan` prints it, and how many messages are late. */
  plan(text: string, options?: { details?: boolean }): { late: number; lines: string };
  /** The worst case of a message, such as `S 123 D`, as a scenario. */
  worstCase(text: string, message: string): string;
}

/** Loads the module of this package, or the one with these bytes. It takes 192 MiB of memory. */
export function load(module?: BufferSource): Promise<Riddlesage>;
