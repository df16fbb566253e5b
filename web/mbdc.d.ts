/** What a telegram says of its meter (docs/JSON.md). */
export interface Meter {
  id: string | null;
  number: string;
  manufacturer: string | null;
  version: number | null;
  medium: string;
  medium_code: number;
}

/** A data record (EN 13757-3), as `mbdc decode --json` has it: `value` has the exact digits. */
export interface Record {
  storage: number;
  tariff: number;
  subunit: number;
  function: string;
  vib: string;
  data: string;
  quantity: string;
  qualifiers: string[];
  reading: "point" | "plain" | "qualified" | "other";
  value: string | null;
  unit: string | null;
  type: string | null;
  error: string | null;
  phase: string | null;
  direction: string | null;
  maker: string | null;
  label: string | null;
  summer_time: boolean | null;
}

/** A status byte (EN 13757-3). */
export interface Status {
  code: number;
  application: string;
  power_low: boolean;
  permanent_error: boolean;
  temporary_error: boolean;
  manufacturer_bits: number;
}

/** The body of a long frame after CI 72h, 73h, 78h or 7Ah. */
export interface Telegram {
  meter: Meter | null;
  access: number | null;
  status: Status | null;
  records: Record[];
  /** Whether another telegram of the readout follows (DIF 1F). */
  more: boolean;
  manufacturer_data: string | null;
}

/** A link frame (EN 13757-2) of `size` bytes from the byte `at` on, or bytes that are none. */
export interface Frame {
  at: number;
  size: number;
  kind: "ack" | "short" | "long" | "none";
  control: number | null;
  address: number | null;
  ci: number | null;
  body: Uint8Array | null;
  telegram: Telegram | null;
  /** Why it is no frame, or why its telegram's records end; null unless `strict` is false. */
  fault: TelegramFault | null;
}

/** Bytes that are no frame, or a frame whose body can't be read to its end. */
export class TelegramFault extends Error {
  /** The byte where it went wrong. */
  readonly at: number;
  readonly place: "frame" | "body";
  /** Number and name of the fault (docs/COMMANDS.md). */
  readonly number: number;
  readonly fault: string;
}

/**
 * The frames in a row of bytes, in order.
 *
 * Throws TelegramFault at the first byte that is no frame, at a body that can't be read to its end (cut, encrypted), and where there is no
 * byte. With `strict: false` these are in the result, each with its `fault`. Throws TypeError where the bytes are no Uint8Array.
 */
export function frames(bytes: Uint8Array, options?: { strict?: boolean }): Frame[];
