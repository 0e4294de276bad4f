// A PostgreSQL cluster for one run: in a folder of its own, reached by a socket there and no port, gone at the end.
import { spawnSync } from 'node:child_process';
import { accessSync, constants, readdirSync, rmSync } from 'node:fs';
import { tmpdir } from 'node:os';
import { delimiter, join } from 'node:path';

const NEEDED = ['initdb', 'pg_ctl', 'postgres', 'psql'];
const DEBIAN = '/usr/lib/postgresql';
const OPTIONS = "-c listen_addresses='' -c fsync=off -c work_mem=64MB -c max_wal_size=1GB";

function isProgram(path) {
  try {
    accessSync(path, constants.X_OK);
    return true;
  } catch {
    return false;
  }
}

function listed(folder) {
  try {
    return readdirSync(folder);
  } catch {
    return [];
  }
}

// The folder that has all that is needed: one in PATH, or the newest of Debian's, which are not there.
export function binaries() {
  const versions = listed(DEBIAN).sort((one, other) => Number(other) - Number(one));
  const folders = [...(process.env.PATH ?? '').split(delimiter), ...versions.map((each) => join(DEBIAN, each, 'bin'))];
  return folders.find((folder) => NEEDED.every((name) => isProgram(join(folder, name)))) ?? null;
}

// The server does not run as root.
const isRoot = process.getuid?.() === 0;

function run(words, options = {}) {
  const [command, ...rest] = isRoot ? ['runuser', '-u', 'postgres', '--', ...words] : words;
  const { status, error, stdout, stderr } = spawnSync(command, rest, {
    cwd: tmpdir(), encoding: 'utf8', maxBuffer: 2 ** 28, ...options,
  });
  if (status !== 0) throw new Error(`${words[0]}: ${error?.message ?? stderr}`);
  return stdout;
}

// Lends `use` a way to run a script of SQL, which gives what is printed.
export function withCluster(folder, use) {
  const at = run(['mktemp', '-d', join(tmpdir(), 'dungdapple-bench-XXXXXX')]).trim();
  const data = join(at, 'data');
  const program = (name) => join(folder, name);
  const stop = () => {
    try {
      run([program('pg_ctl'), '-D', data, '-m', 'immediate', '-w', 'stop']);
    } finally {
      rmSync(at, { recursive: true, force: true });
    }
  };
  try {
    run([program('initdb'), '-D', data, '-A', 'trust', '-U', 'postgres', '-E', 'UTF8', '--locale=C', '-N']);
    run([program('pg_ctl'), '-D', data, '-l', join(at, 'log'), '-o', `${OPTIONS} -k ${at}`, '-w', 'start'], {
      stdio: 'ignore',
    });
  } catch (error) {
    rmSync(at, { recursive: true, force: true });
    throw error;
  }
  try {
    const words = [program('psql'), '-h', at, '-U', 'postgres', '-qAtX', '-v', 'ON_ERROR_STOP=1', '-f', '-'];
    return use((input) => run(words, { input }));
  } finally {
    stop();
  }
}
