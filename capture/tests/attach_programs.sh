# The programs of attach_long.sh: has_NAME says whether it is installed, begin_NAME starts it as `top`, find_NAME
# prints who of it is attached, if that is another process. Programs that are no servers print a line for each pass
# themselves, and end with a status of their own once the file `end` is there.
has() { command -v "$1" > /dev/null || { leave_out "$1, which is not installed"; return 1; }; }

has_c() { gcc -O1 -pthread "$kit/tests/attached.c" -o attached; }
begin_c() { runs ./attached 4 4000 signals children spawns modules passes; }

has_python() { has python3; }
begin_python() {
    cat > work.py << 'END_OF_PROGRAM'
import concurrent.futures, hashlib, json, os, re, subprocess, sys
def work(seed):
    sums = hashlib.md5()
    for k in range(8):
        x = [json.loads(json.dumps({"a": [i] * 50, "b": "x" * 600, "c": {str(k): k for k in range(20)}}))
             for i in range(20 + seed)]
        sums.update(re.sub("x", "y", str(x)).encode())
    return sums.hexdigest()
while not os.path.exists("end"):
    with concurrent.futures.ThreadPoolExecutor(4) as threads:
        sums = "".join(threads.map(work, range(4)))
    sums += subprocess.run(["echo", "a child"], capture_output=True, text=True).stdout
    print(hashlib.md5(sums.encode()).hexdigest(), flush=True)
sys.exit(7)
END_OF_PROGRAM
    PYTHONMALLOC=malloc runs python3 work.py
}
has_perl() { has perl; }
begin_perl() {
    runs perl -e 'use Digest::MD5 "md5_hex"; $| = 1; until (-e "end") { my $sum = "";
        for my $n (1 .. 4) { my %h; $h{$_} = "x" x ($_ * $n % 700) for 1 .. 5000;
            $sum = md5_hex($sum, map { "$_$h{$_}" } sort keys %h); }
        print "$sum\n" } exit 7'
}
has_node() { has node; }
begin_node() {
    runs node -e 'const fs = require("fs"), crypto = require("crypto"), zlib = require("zlib");
        const work = () => { const sum = crypto.createHash("md5"); const all = [];
            for (let i = 0; i < 2000; i++)
                all.push(Buffer.alloc(900, i & 255), JSON.parse(JSON.stringify({ i, text: "x".repeat(i % 99) })));
            for (const one of all) sum.update(Buffer.isBuffer(one) ? one : JSON.stringify(one));
            zlib.deflate(Buffer.concat(all.filter(Buffer.isBuffer)), (error, data) => {
                sum.update(data); console.log(sum.digest("hex"));
                fs.existsSync("end") ? process.exit(7) : setImmediate(work); }); };
        work();'
}
has_java() { has java; }
begin_java() {
    cat > Work.java << 'END_OF_PROGRAM'
import java.util.concurrent.*;
public class Work {
    static long pass(int seed) {
        java.util.zip.Deflater d = new java.util.zip.Deflater();
        byte[] in = new byte[9000], out = new byte[9999];
        for (int i = 0; i < in.length; i++) in[i] = (byte)(i * seed % 61);
        d.setInput(in); d.finish();
        long sum = d.deflate(out);
        d.end();
        for (byte b : out) sum = sum * 31 + b;
        return sum;
    }
    public static void main(String[] words) throws Exception {
        ExecutorService pool = Executors.newFixedThreadPool(3);
        while (!new java.io.File("end").exists()) {
            java.util.List<Future<Long>> sums = new java.util.ArrayList<>();
            for (int k = 0; k < 300; k++) { final int seed = k; sums.add(pool.submit(() -> pass(seed))); }
            long sum = 0;
            for (Future<Long> one : sums) sum = sum * 31 + one.get();
            System.out.println(sum);
        }
        System.exit(7);
    }
}
END_OF_PROGRAM
    runs java -Xmx200m Work.java
}
has_rust() { has rustc; }
begin_rust() {
    [ -x ./work_rust ] || { cat > work_rust.rs << 'END_OF_PROGRAM'
use std::collections::{BTreeMap, HashMap};
fn pass(seed: u64) -> u64 {
    let (mut map, mut names, mut x) = (HashMap::new(), BTreeMap::new(), seed + 1);
    for i in 0..4000u64 {
        x = x.wrapping_mul(6364136223846793005).wrapping_add(1442695040888963407);
        map.insert(i, vec![x; (x >> 58) as usize]);
        names.insert(format!("{:x}", x), Box::new(i));
        if i % 3 == 0 { map.remove(&(i / 2)); }
    }
    let sum: u64 = map.values().flatten().fold(0u64, |a, b| a.wrapping_add(*b));
    names.iter().fold(sum, |a, (k, v)| a.wrapping_mul(31).wrapping_add(k.len() as u64 + **v))
}
fn main() {
    while !std::path::Path::new("end").exists() {
        let all: Vec<_> = (0..4).map(|k| std::thread::spawn(move || pass(k))).collect();
        println!("{}", all.into_iter().map(|t| t.join().unwrap().to_string()).collect::<String>());
    }
    std::process::exit(7)
}
END_OF_PROGRAM
        rustc -O -o work_rust work_rust.rs || return; }
    runs ./work_rust
}
has_nginx() { has nginx; }
begin_nginx() {
    printf 'daemon off; pid %s/nginx.pid; error_log %s/e.log; worker_processes 1;\nevents {}\n' "$work" "$work" > n.conf
    printf 'http { access_log off; server { listen 127.0.0.1:28191; root %s/www; } }\n' "$work" >> n.conf
    runs nginx -c "$work/n.conf"
    until_true 30 port_is_open 28191
    asks http 28191
}
find_nginx() { pgrep -P "$top"; }
has_lighttpd() { has lighttpd; }
begin_lighttpd() {
    printf 'server.document-root="%s/www"\nserver.port=28190\nserver.bind="127.0.0.1"\n' "$work" > l.conf
    runs lighttpd -D -f l.conf
    until_true 30 port_is_open 28190
    asks http 28190
}
has_memcached() { has memcached; }
begin_memcached() {
    runs memcached -u root -l 127.0.0.1 -p 28192
    until_true 30 port_is_open 28192
    asks memcached 28192
}
has_slapd() { has slapd && has ldapsearch; }
begin_slapd() {
    rm -rf ldap && mkdir ldap
    printf '%s\n' 'include /etc/ldap/schema/core.schema' 'modulepath /usr/lib/ldap' 'moduleload back_mdb' \
        'database mdb' 'suffix "dc=x"' 'rootdn "cn=root,dc=x"' 'rootpw secret' "directory $work/ldap" > slapd.conf
    { printf 'dn: dc=x\nobjectClass: dcObject\nobjectClass: organization\no: x\ndc: x\n'
      for k in $(seq 200); do
          printf '\ndn: cn=%d,dc=x\nobjectClass: person\ncn: %d\nsn: name %d\n' "$k" "$k" $((k * k))
      done; } > x.ldif
    slapadd -f slapd.conf -l x.ldif
    runs slapd -f slapd.conf -h ldap://127.0.0.1:28193 -d 0
    until_true 30 port_is_open 28193
    asks ldap 28193
}
has_mariadb() { has mariadbd && has mariadb; }
begin_mariadb() {
    rm -rf my
    mariadb-install-db --no-defaults --datadir="$work/my" --auth-root-authentication-method=normal --user=root \
        > install.said 2>&1
    mkdir -p my/test
    runs mariadbd --no-defaults --user=root --datadir="$work/my" --socket="$work/my.sock" --skip-networking \
        --innodb-buffer-pool-size=32M
    until_true 60 test -S my.sock
    asks mariadb "$work/my.sock"
}
has_postgres() { has postgres && has psql; }
begin_postgres() {
    local bin
    bin=$(dirname "$(readlink -f "$(command -v postgres)")")
    rm -rf pg && mkdir pg && chown postgres pg && chmod 700 pg
    as_postgres "$bin/initdb" -D "$work/pg" -A trust -U postgres > install.said 2>&1
    runs setpriv --reuid postgres --regid postgres --clear-groups "$bin/postgres" -D "$work/pg" -h '' -k "$work/pg" \
        -p 28194
    until_true 60 test -S pg/.s.PGSQL.28194
    asks postgres "$work/pg" -p 28194 -U postgres postgres
}
as_postgres() { setpriv --reuid postgres --regid postgres --clear-groups "$@"; }
find_postgres() { until [ -s backend ]; do sleep 0.1; done; cat backend; }
