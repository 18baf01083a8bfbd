// For node --test: what failed and what tests say of themselves, and a last line 'N passed, M failed'.
export default async function* reporter(events) {
  let passed = 0, failed = 0;
  for await (const { type, data } of events) {
    if (type === 'test:diagnostic' && data.file && !/^(tests|suites|pass|fail|cancelled|skipped|todo|duration_ms) /.test(data.message)) yield `${data.message}\n`;
    if (type === 'test:pass' && data.details.type !== 'suite') passed++;
    if (type === 'test:fail' && data.details.type !== 'suite') {
      failed++;
      const cause = data.details.error?.cause ?? data.details.error;
      yield `FAILED ${data.name}: ${String(cause?.stack ?? cause).slice(0, 1500)}\n`;
    }
    if (type === 'test:stderr') yield data.message;
  }
  yield `${passed} passed, ${failed || (passed ? 0 : 1)} failed\n`;
}
