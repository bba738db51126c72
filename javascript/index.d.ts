export const MAX_MEMBERS: number;
export type Status = 'alive' | 'suspect' | 'faulty' | 'leave' | 'tombstone';
export interface Member { address: string; weight: number; status: Status; incarnation: number }
export interface Move<K> { key: K; before: string | null; after: string | null }
export interface Answer { status: number; body: Buffer; text: string; owner: string; headers: Record<string, string | string[] | undefined> }

export class RingpopError extends Error {}
export class BadLine extends RingpopError { line: number; reason: string }
export class BadKey extends RingpopError { key: string }
export class BadReplicas extends RingpopError { replicas: unknown }
export class BadMember extends RingpopError { member: unknown; reason: string }
export class TooManyMembers extends RingpopError {}
export class AgentError extends RingpopError { status: number; line: string; code?: string; retryAfter?: number }
export class Unreachable extends RingpopError { url: string; reason: string }
export class BadAnswer extends RingpopError { url: string; reason: string }

export class Ring {
  constructor(members: (Pick<Member, 'address'> & Partial<Member>)[], options?: { replicas?: number; own?: string });
  static fromMembers(lines: string | Iterable<string>, options?: { replicas?: number }): Ring;
  static fromAgent(url?: string): Promise<Ring>;
  readonly members: Member[];
  readonly serving: { address: string; weight: number }[];
  readonly replicas: number;
  readonly own?: string;
  readonly digest: string;
  owner(key: string | Buffer): string | null;
  owners(key: string | Buffer, n: number): string[];
  moved<K extends string | Buffer>(keys: Iterable<K>, other: Ring): Move<K>[];
  equals(other: unknown): boolean;
}

export class Client {
  constructor(url?: string, options?: { timeout?: number });
  readonly url: string;
  timeout: number;
  request(key: string, body?: string | Buffer, options?: { method?: string; headers?: Record<string, string> }): Promise<Answer>;
  owner(key: string): Promise<string | null>;
  owners(keys: Iterable<string>, n?: number): Promise<string[][]>;
  members(): Promise<Member[]>;
  ring(): Promise<Ring>;
  watch(options?: { ring?: Ring; wait?: number; signal?: AbortSignal }): AsyncGenerator<Ring, void, undefined>;
  leave(): Promise<void>;
  rejoin(): Promise<void>;
  close(): void;
}
