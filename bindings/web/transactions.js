// Reads the transactions of a log, which the core finds (hidlog_transactions in crates/hidlog_c/hidlog.h). The core's
// output is parsed in slices, and fills the tables of log.js. Sets `globalThis.hidlogTransactions`.
"use strict";

(() => {
    const { ERROR, KEEPALIVE } = globalThis.hidlogBytes;
    const { END, KIND } = globalThis.hidlogLog;
    const [NEWLINE, COLON, ZERO, NINE] = [10, 58, 48, 57];
    const [LATE, BY_ERROR, DROPPED, REPLACED, FORGOTTEN, UNKNOWN] =
        Array.from("ledrfu", (letter) => letter.charCodeAt(0));
    /** @type {Record<number, number>} */
    const END_BY_WORD = {
        [DROPPED]: END.DROPPED, [REPLACED]: END.REPLACED, [FORGOTTEN]: END.FORGOTTEN, [UNKNOWN]: END.UNKNOWN,
    };
    const ERROR_TIMEOUT = 5;
    // Number of lines to fill in before the clock is checked again.
    const BATCH_SIZE = 512;

    /** Fills the tables of a log from the core's output. The log's lines have been read before. */
    class TableFiller {
        /**
         * @param {Viewer.Log} log
         * @param {Uint8Array} text
         */
        constructor(log, text) {
            this.log = log;
            this.text = text;
            this.at = 0;
        }

        get isDone() {
            return this.at >= this.text.length;
        }

        /**
         * Fills the tables until the end of the output or until a time, as performance.now() returns it.
         * @param {number} end
         */
        fillUntil(end) {
            while (!this.isDone) {
                for (let count = 0; count < BATCH_SIZE && !this.isDone; count += 1) {
                    this.fillLine();
                }
                if (performance.now() >= end) {
                    return;
                }
            }
        }

        /** Reads a number, and skips the byte after it. */
        number() {
            const { text } = this;
            let [at, value] = [this.at, 0];
            while (text[at] >= ZERO && text[at] <= NINE) {
                value = value * 10 + text[at] - ZERO;
                at += 1;
            }
            this.at = at + 1;
            return value;
        }

        /** The last skipped byte. */
        get last() {
            return this.text[this.at - 1];
        }

        /** Reads an output line: a line number, the first lines of its transaction and message, and words. */
        fillLine() {
            const [line, transaction, message] = [this.number() - 1, this.number() - 1, this.number() - 1];
            if (line >= this.log.length) {
                this.at = this.text.length;
                return;
            }
            if (message === line) {
                this.startMessage(line);
            } else if (message >= 0) {
                this.continueMessage(line, message);
            }
            if (transaction >= 0) {
                this.addToTransaction(line, this.log.messages.values[transaction], message === line);
            }
            while (this.last !== NEWLINE && !this.isDone) {
                this.readWord(line);
            }
        }

        /**
         * Reads a word: a letter, a line number, and for some letters a colon and a further number.
         * @param {number} line
         */
        readWord(line) {
            const letter = this.text[this.at];
            this.at += 1;
            const first = this.number() - 1;
            const number = this.last === COLON ? this.number() : 0;
            const id = this.log.messages.values[first];
            if (letter === LATE) {
                this.removeLate(first);
            } else if (letter === BY_ERROR) {
                this.end(id, number === ERROR_TIMEOUT ? END.TIMED_OUT : END.REFUSED, line);
                this.log.transactions.code.values[id - 1] = number + 1;
            } else if (END_BY_WORD[letter]) {
                this.end(id, END_BY_WORD[letter], letter === FORGOTTEN || letter === UNKNOWN ? line : number - 1);
            }
        }

        /**
         * Adds the message that starts at a line. A host's message is a transaction.
         * @param {number} line
         */
        startMessage(line) {
            const { answers, kinds, messages, transactions } = this.log;
            const isHost = kinds.values[line] === KIND.HOST;
            const table = isHost ? transactions : answers;
            const place = table.add();
            table.first.values[place] = line;
            table.last.values[place] = line;
            messages.values[line] = isHost ? place + 1 : -place - 1;
        }

        /** @param {number} id */
        tableOf(id) {
            return id > 0 ? this.log.transactions : this.log.answers;
        }

        /**
         * Adds the next packet of the message that starts at line `first`.
         * @param {number} line
         * @param {number} first
         */
        continueMessage(line, first) {
            const { messages } = this.log;
            const id = messages.values[first];
            const { last, more } = this.tableOf(id);
            const place = Math.abs(id) - 1;
            more.values[place] += 1;
            last.values[place] = line;
            messages.values[line] = id;
        }

        /**
         * Adds a line to a transaction, and links the response that starts there, if any.
         * @param {number} line
         * @param {number} id
         * @param {boolean} isStart
         */
        addToTransaction(line, id, isStart) {
            const { answers, kinds, messages, owners, transactions } = this.log;
            owners.values[line] = id;
            transactions.count.values[id - 1] += 1;
            transactions.until.values[id - 1] = line + 1;
            const command = isStart && kinds.values[line] === KIND.KEY ? this.log.byte(line, 4) & 0x7f : KEEPALIVE;
            if (command !== KEEPALIVE && command !== ERROR) {
                const answer = -messages.values[line];
                answers.asks.values[answer - 1] = id;
                transactions.answer.values[id - 1] = answer;
                this.end(id, END.ANSWERED, line);
            }
        }

        /**
         * Removes a late line from its transaction and its message.
         * @param {number} line
         */
        removeLate(line) {
            const { messages, owners, transactions: { count, more } } = this.log;
            const place = owners.values[line] - 1;
            more.values[place] -= messages.values[line] ? 1 : 0;
            count.values[place] -= 1;
            owners.values[line] = 0;
            messages.values[line] = 0;
        }

        /**
         * Records how a transaction ended, and at which line.
         * @param {number} id
         * @param {number} how
         * @param {number} by
         */
        end(id, how, by) {
            const { transactions } = this.log;
            transactions.end.values[id - 1] = how;
            transactions.by.values[id - 1] = by + 1;
        }
    }

    globalThis.hidlogTransactions = { TableFiller };
})();
