/* open_file PROGRAM FILE: what print1525.exe does where another program has its target open: it refuses, and the file, which has the text
 * `kept`, stays as it is. Status 0, or 1 with a line that says what differs. */
#include <stdio.h>
#include <string.h>
#include <windows.h>

static int wrong;

static void expect(int holds, const char *what, DWORD status) {
    if (holds) return;
    printf("%s: status %lx\n", what, (unsigned long)status);
    wrong = 1;
}

/* Begins the program with standard input from a pipe, of which this has the other end. */
static HANDLE begin(const char *line, HANDLE *input, PROCESS_INFORMATION *process) {
    SECURITY_ATTRIBUTES inherited = {sizeof inherited, NULL, TRUE};
    STARTUPINFOA how = {.cb = sizeof how, .dwFlags = STARTF_USESTDHANDLES};
    HANDLE from;
    char words[2048];
    snprintf(words, sizeof words, "%s", line);
    CreatePipe(&from, input, &inherited, 0);
    SetHandleInformation(*input, HANDLE_FLAG_INHERIT, 0);
    how.hStdInput = from, how.hStdOutput = GetStdHandle(STD_OUTPUT_HANDLE), how.hStdError = GetStdHandle(STD_ERROR_HANDLE);
    if (!CreateProcessA(NULL, words, NULL, NULL, TRUE, 0, NULL, NULL, &how, process)) wrong = 1;
    CloseHandle(from);
    return process->hProcess;
}

int main(int count, char **words) {
    char line[2048], text[16] = {0};
    HANDLE input, open;
    PROCESS_INFORMATION process;
    DWORD status = 0, got = 0;
    if (count != 3) return 2;
    snprintf(line, sizeof line, "\"%s\" pages -o \"Z:%s\"", words[1], words[2]);

    /* Open, so that nobody else may write or remove it. */
    snprintf(text, sizeof text, "Z:");
    open = CreateFileA(strcat(strcpy(line + 1024, text), words[2]), GENERIC_READ, FILE_SHARE_READ, NULL, OPEN_EXISTING, 0, NULL);
    expect(open != INVALID_HANDLE_VALUE, "the file does not open", GetLastError());
    begin(line, &input, &process);
    WriteFile(input, "OPEN 4,4\n", 9, &got, NULL);
    CloseHandle(input);
    expect(WaitForSingleObject(process.hProcess, 20000) == WAIT_OBJECT_0, "a target that is open: no end", 0);
    GetExitCodeProcess(process.hProcess, &status);
    expect(status == 3, "a target that is open", status);
    memset(text, 0, sizeof text);
    ReadFile(open, text, sizeof text - 1, &got, NULL);
    expect(!strcmp(text, "kept"), text, 0);
    CloseHandle(open);
    return wrong;
}
