// What is used of Node here. Its own types are a package, which is not needed.
declare module "node:*";
declare const Buffer: {isBuffer(value: unknown): boolean};
declare const process: {
  argv: string[];
  env: Record<string, string | undefined>;
  pid: number;
  stderr: {write(text: string): void};
  stdout: {write(text: string): void};
  exit(status?: number): never;
  hrtime: {bigint(): bigint};
  kill(pid: number, signal: number): void;
  on(event: string, listener: (...args: any[]) => void): void;
};
