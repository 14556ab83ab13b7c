'use strict';
// A client of the Language Server Protocol over a process: frames, requests and notifications. It knows nothing of VS Code.
const child_process = require('child_process');

class Client {
    // `told(method, params)` is called for each notification of the server, `ended(why)` once when it ends unasked.
    constructor(command, words, told, ended) {
        this.told = told;
        this.ended = ended;
        this.number = 0;
        this.waiting = new Map();
        this.bytes = Buffer.alloc(0);
        this.errors = '';
        this.process = child_process.spawn(command, words);
        this.process.on('error', (why) => this.end(why.message));
        this.process.on('close', (status, signal) => this.end(this.errors || `it ended with ${signal || 'status ' + status}`));
        this.process.stdin.on('error', () => {});
        this.process.stderr.on('data', (data) => (this.errors = (this.errors + data).slice(-1000)));
        this.process.stdout.on('data', (data) => this.read(data));
    }

    // Answers what the server answers, and fails with its error.
    request(method, params, token) {
        const id = ++this.number;
        this.send({ jsonrpc: '2.0', id, method, params });
        if (token) {
            token.onCancellationRequested(() => this.waiting.has(id) && this.notify('$/cancelRequest', { id }));
        }
        return new Promise((resolve, reject) => this.waiting.set(id, { resolve, reject }));
    }

    notify(method, params) {
        this.send({ jsonrpc: '2.0', method, params });
    }

    async stop() {
        this.ended = () => {};
        await this.request('shutdown').catch(() => {});
        this.notify('exit');
        this.process.stdin.end();
    }

    send(message) {
        const body = Buffer.from(JSON.stringify(message));
        this.process.stdin.write(`Content-Length: ${body.length}\r\n\r\n`);
        this.process.stdin.write(body);
    }

    // Takes what came, and each whole frame of it.
    read(data) {
        this.bytes = Buffer.concat([this.bytes, data]);
        for (;;) {
            const blank = this.bytes.indexOf('\r\n\r\n');
            const head = /Content-Length: (\d+)/i.exec(this.bytes.toString('latin1', 0, Math.max(blank, 0)));
            const end = head ? blank + 4 + Number(head[1]) : Infinity;
            if (this.bytes.length < end) {
                return;
            }
            const body = this.bytes.toString('utf8', blank + 4, end);
            this.bytes = this.bytes.subarray(end);
            this.take(JSON.parse(body));
        }
    }

    take(message) {
        if (message.method && message.id === undefined) {
            this.told(message.method, message.params);
        } else if (message.method) {
            this.send({ jsonrpc: '2.0', id: message.id, error: { code: -32601, message: 'this client has no requests' } });
        } else if (this.waiting.has(message.id)) {
            const { resolve, reject } = this.waiting.get(message.id);
            this.waiting.delete(message.id);
            message.error ? reject(new Error(message.error.message)) : resolve(message.result);
        }
    }

    end(why) {
        for (const { reject } of this.waiting.values()) {
            reject(new Error(why));
        }
        this.waiting.clear();
        const ended = this.ended;
        this.ended = () => {};
        ended(why);
    }
}

module.exports = { Client };
