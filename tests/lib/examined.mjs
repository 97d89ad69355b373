// Counts what built-in functions examine in a text.

/** Begins to count the characters that `indexOf` and regular expressions examine. The result ends that, and returns the number. */
export function examining() {
    const [indexOf, exec] = [String.prototype.indexOf, RegExp.prototype.exec];
    let count = 0;
    String.prototype.indexOf = function (text, from = 0) {
        const found = indexOf.call(this, text, from);
        count += (found < 0 ? this.length : found) - from + 1;
        return found;
    };
    RegExp.prototype.exec = function (text) {
        const from = this.global ? this.lastIndex : 0;
        const found = exec.call(this, text);
        const before = this.sticky ? 0 : (found ? found.index : String(text).length) - from;
        count += before + (found ? found[0].length : 0) + 1;
        return found;
    };
    return () => {
        Object.assign(String.prototype, { indexOf });
        Object.assign(RegExp.prototype, { exec });
        return count;
    };
}
