export type Bytes = string | ArrayBuffer | ArrayBufferView;
export type Form = 'detect' | 'hex' | 'text' | 'raw' | 'dump';
export type State = 'Halted' | 'IStart' | 'AStart' | 'Running' | 'Maintenance';

/** A call was refused, or an input has a fault: its text is the program's. */
export class DdcmpError extends Error {
  code: number;
  /** The index of a byte, or the number of a line, if the fault has one. */
  at: number;
  /** What was written before the fault; of `bytes` a Uint8Array. */
  output: string | Uint8Array;
}

export interface Sizes {
  window?: number;
  inbox?: number;
  max?: number;
  syn?: number;
  restart?: boolean;
}

export interface Style {
  json?: boolean;
  discarded?: boolean;
  max?: number;
}

export interface Notice {
  kind: string;
  count: number;
}

export interface Counters {
  nakSent: Record<string, number>;
  nakReceived: Record<string, number>;
  [name: string]: number | Record<string, number>;
}

export interface Script extends Sizes {
  view?: 'text' | 'ladder' | 'svg';
  counters?: boolean;
  begun?: boolean;
}

export interface Station {
  start(): number;
  enterMaintenance(): number;
  /** Refused unless the station is halted and its inbox empty. */
  acknowledgeOnTake(onTake?: boolean): void;
  halt(): void;
  clearLine(): boolean;
  send(message: Bytes): number;
  sendMaintenance(message: Bytes): void;
  sendRefusal(message: Bytes): DdcmpError | null;
  take(): Uint8Array | null;
  waitingAt(i: number): Uint8Array;
  poll(): Uint8Array | null;
  feed(piece: Bytes): { used: number; notice: Notice | null };
  takeArm(): boolean;
  expire(): boolean;
  close(): void;
  readonly state: State;
  readonly timerOn: boolean;
  readonly room: boolean;
  readonly outgoing: number;
  readonly waiting: number;
  readonly offset: number;
  readonly open: number;
  readonly held: number;
  readonly config: Required<Sizes>;
  readonly numbers: { r: number; n: number; a: number; t: number };
  readonly counters: Counters;
}

export interface Explainer {
  push(piece: Bytes): string;
  end(): string;
}

export interface Ddcmp {
  readonly module: WebAssembly.Module;
  readonly Station: new (sizes?: Sizes) => Station;
  explain(input: Bytes, how?: Style & { form?: Form }): string;
  ladder(first: Bytes, second: Bytes, how?: Omit<Style, 'json'> & { form?: Form }): string;
  bytes(input: Bytes, form?: Form): Uint8Array;
  simulate(script: Bytes, how?: Script): string;
  explainer(how?: Style): Explainer;
}

export const STATES: State[];
export const NOTICES: string[];
export function load(source: Bytes | WebAssembly.Module): Promise<Ddcmp>;
