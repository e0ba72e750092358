/** What the types of TypeScript 4.8 lack: streams that pack and unpack. */

interface ByteStream {
  readonly readable: ReadableStream<Uint8Array>;
  readonly writable: WritableStream<Uint8Array>;
}

declare const CompressionStream: { new (format: 'deflate-raw'): ByteStream };
declare const DecompressionStream: { new (format: 'deflate-raw'): ByteStream };
