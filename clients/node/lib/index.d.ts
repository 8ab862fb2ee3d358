// The types of the client: see README.md.

/** A value that is sent: an integer of 64 bits, as a number if that holds it exactly, or a text. */
export type Value = number | bigint | string;
/** An answer, its values in the order of the query's head. An integer is a bigint if a number doesn't hold it exactly. */
export type Answer = Value[];
export type ColumnType = "int" | "text";

export interface Update {
  /** The number of changes so far. */
  seq: number;
  /** The copies of the row after the command. */
  copies: number;
  /** Whether the row is new, or is gone. */
  changed: boolean;
}

export interface Done {
  seq: number;
  /** How many rows the transaction inserted and deleted together. */
  rows: number;
}

export interface Page {
  answers: Answer[];
  /** Whether no answer remains. */
  last: boolean;
}

export interface Delta {
  seq: number;
  came: Answer[];
  went: Answer[];
}

export interface Change extends Delta {
  /** Whether this is the difference after a session was lost, as one change. */
  restarted: boolean;
  /** Whether the server counts fewer changes than before: it started without its rows. */
  lost: boolean;
}

export interface Timeout {
  /** Milliseconds. */
  timeout?: number;
}

export interface Within {
  /** The milliseconds that a listing may take; then `Overtaken` is thrown. */
  within?: number;
}

export interface Address extends Timeout {
  host?: string;
  port?: number;
}

export interface LiveSettings extends Within {
  /** Try a start again that failed, the first one too: without the server, or without the query. */
  reconnect?: boolean;
  /** After so many milliseconds without a byte the server is asked for a reply. */
  ping?: number;
}

/** What a transaction adds, deletes and updates. A row that is deleted, or replaced, has to be present then. */
export interface Transaction {
  add(relation: string, ...values: Value[]): void;
  delete(relation: string, ...values: Value[]): void;
  update(relation: string, old: Value[], row: Value[]): void;
}

export const MOST_ANSWERS: number;
export const MOST_HELD: number;

/** Connects to a server. `timeout` is for connecting and for each reply. */
export function connect(address?: Address): Promise<Connection>;
/** The answers of a query, kept up to date. With `reconnect` the server needn't be there yet. */
export function live(query: string, settings?: Address & LiveSettings): Promise<Live>;
/** A value as a literal of the line protocol. */
export function spell(value: Value): string;
/** The values in a line of literals. */
export function readValues(text: string): Answer;

/** One session of a server. */
export class Connection {
  private constructor();
  /** The error that ended the session; null while it lasts. */
  readonly ended: DjqError | null;
  close(): void;
  /** The names of columns that this connection knows. */
  readonly schema: Schema;
  relation(name: string, ...types: ColumnType[]): Promise<null>;
  /** Makes a relation and names its columns, in the order of the object's properties. */
  relation(name: string, columns: Record<string, ColumnType>): Promise<null>;
  /** Names all columns of a relation, in their order, for queries that name them. Nothing is sent. */
  columns(relation: string, ...names: string[]): void;
  add(relation: string, ...values: Value[]): Promise<Update>;
  delete(relation: string, ...values: Value[]): Promise<Update>;
  /** Registers a query, by places or by the names of columns. Gives the most steps that one answer costs. */
  query(text: string): Promise<number>;
  union(name: string, ...members: string[]): Promise<number>;
  drop(query: string): Promise<null>;
  has(query: string, ...values: Value[]): Promise<boolean>;
  explain(query: string): Promise<string[]>;
  shape(query: string): Promise<"flat" | "linear" | "union">;
  ping(): Promise<void>;
  quit(): Promise<null>;
  stop(): Promise<null>;
  cursor(query: string): Promise<Cursor>;
  answers(query: string, page?: number): AsyncGenerator<Answer, void, void>;
  snapshot(query: string, settings?: Within): Promise<Answer[]>;
  live(query: string, settings?: LiveSettings): Promise<Live>;
  watch(query: string): Promise<number>;
  unwatch(query: string): Promise<void>;
  nextChange(query: string, settings?: Timeout): Promise<Delta | null>;
  /** Carries out what `fill` calls as one change, or nothing of it. */
  transaction(fill: (change: Transaction) => void | Promise<void>): Promise<Done>;
  /** Inserts many rows. Gives how many weren't present. */
  load(relation: string, rows: Iterable<Value[]> | AsyncIterable<Value[]>): Promise<number>;
}

export class Cursor {
  private constructor();
  next(count?: number): Promise<Page>;
  close(): Promise<null>;
}

/** A set of answers. */
export class Answers implements Iterable<Answer> {
  readonly size: number;
  has(...values: Value[]): boolean;
  [Symbol.iterator](): Iterator<Answer>;
}

/** The answers of one query, kept up to date. */
export class Live implements AsyncIterable<Change> {
  private constructor();
  readonly query: string;
  readonly answers: Answers;
  readonly seq: number;
  next(settings?: Timeout): Promise<Change | null>;
  changes(settings?: Timeout): AsyncGenerator<Change, void, void>;
  close(): void;
  [Symbol.asyncIterator](): AsyncGenerator<Change, void, void>;
}

/** The names of relations' columns. */
export class Schema {
  readonly names: Map<string, string[]>;
  columns(relation: string, ...names: string[]): void;
  /** The query with a term for each column, in place of names. */
  spell(query: string): string;
}

export class DjqError extends Error {}
export class Disconnected extends DjqError {}
export class Unanswered extends Disconnected {
  readonly line: string;
}
export class Ended extends DjqError {
  readonly reason: string;
  readonly line: string;
}
export class LiveEnded extends DjqError {
  readonly query: string;
  readonly cause: DjqError;
}
export class Refused extends DjqError {
  readonly number: number;
  readonly words: string;
  readonly line: string;
  /** What to do; empty if the client doesn't know. */
  readonly cure: string;
}
/** A query names columns that can't be written out as places, or names of columns don't fit. Nothing is sent. */
export class BadColumns extends Refused {}
export class NotAdmitted extends Refused {
  readonly kind: "cyclic" | "connex";
  readonly edges: string[][];
}
export class SomeRefused extends DjqError {
  readonly sent: number;
  readonly refused: number;
  readonly first: Refused[];
}
export class Stale extends DjqError {
  readonly relation: string;
  readonly seq: number;
}
export class Overtaken extends DjqError {}
