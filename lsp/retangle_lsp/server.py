"""The state of a conversation with a client, and what is done for each message."""
import gc
import tempfile

from . import changes, fullnames, renaming, requests, texts
from .documents import path_of, uri_of
from .folders import said_folder
from .protocol import (CANCELLED, INTERNAL, INVALID_PARAMS, INVALID_REQUEST, NO_METHOD,
                       NOT_INITIALIZED, REQUEST_FAILED, Problem, change_in, is_number, part,
                       part_or_none, place_in, shown, version_in)
from .scanning import DEFINITION, MENTION, USE
from .settings import Settings
from .tokens import LEGEND
from .workspace import Workspace

SHOW_C = 'retangle.showC'
IDLE_SECONDS = 1        # between two looks at the files of the disk
WATCHED = '**/*.{w,ch,h,hw,inc}', '**/.retangle'

CAPABILITIES = {
    'positionEncoding': 'utf-16',
    'textDocumentSync': {'openClose': True, 'change': 2, 'save': {'includeText': False}},
    'completionProvider': {'triggerCharacters': ['<', '(']},
    'hoverProvider': True,
    'definitionProvider': True,
    'referencesProvider': True,
    'documentHighlightProvider': True,
    'documentSymbolProvider': True,
    'workspaceSymbolProvider': True,
    'renameProvider': {'prepareProvider': True},
    'foldingRangeProvider': True,
    'documentLinkProvider': {'resolveProvider': False},
    'semanticTokensProvider': {'legend': LEGEND, 'range': True, 'full': {'delta': True}},
    'inlayHintProvider': True,
    'selectionRangeProvider': True,
    'codeActionProvider': {'codeActionKinds': ['quickfix', 'refactor.rewrite']},
    'executeCommandProvider': {'commands': [SHOW_C]},
}
PULLED = {'interFileDependencies': True, 'workspaceDiagnostics': True}


class Server:
    """Answers messages. Each request has one answer, and a notification has none."""

    def __init__(self, messages, find_retangle, version):
        self.messages, self.version = messages, version
        self.state = 'new'              # then 'open', then 'shut'
        self.workspace = Workspace(find_retangle, messages)
        self.client, self.asked = {}, 0
        self.begun = {}                 # the parameters of `initialize`
        self.copies = None              # a folder with copies of outputs
        self.tokens = texts.Tokens()
        self.requests = {'initialize': self.initialize, 'shutdown': self.shutdown,
                         **self.questions()}
        self.notices = {
            'initialized': self.initialized,
            'textDocument/didOpen': self.did_open,
            'textDocument/didChange': self.did_change,
            'textDocument/didSave': self.did_save,
            'textDocument/didClose': self.did_close,
            'workspace/didChangeWatchedFiles': lambda params: self.workspace.look_again(),
            'workspace/didChangeConfiguration': self.did_change_configuration,
        }

    def questions(self):
        """What answers a request on webs, by its method."""
        return {
            'textDocument/completion': self.completion,
            'textDocument/hover': self.hover,
            'textDocument/definition': self.definition,
            'textDocument/references': self.references,
            'textDocument/documentHighlight': self.highlight,
            'textDocument/documentSymbol': self.document_symbol,
            'textDocument/foldingRange': self.folding_range,
            'textDocument/documentLink': self.document_link,
            'textDocument/semanticTokens/full': self.semantic_tokens,
            'textDocument/semanticTokens/full/delta': self.semantic_tokens_delta,
            'textDocument/semanticTokens/range': self.semantic_tokens_range,
            'textDocument/inlayHint': self.inlay_hint,
            'textDocument/selectionRange': self.selection_range,
            'textDocument/diagnostic': self.diagnostic,
            'workspace/diagnostic': self.workspace_diagnostic,
            'textDocument/prepareRename': self.prepare_rename,
            'textDocument/rename': self.rename,
            'textDocument/codeAction': self.code_action,
            'workspace/symbol': self.workspace_symbol,
            'workspace/executeCommand': self.execute_command,
        }

    def serve(self):
        """Answers messages up to `exit` or the end of the input. The exit status."""
        while True:
            try:
                if not self.messages.wait(IDLE_SECONDS, self.workspace.compiler.descriptors()):
                    self.guarded('a look at the files', self.workspace.tick)
                    continue
                message = self.messages.read()
                if part_or_none(message, 'method') == 'exit':
                    return 0 if self.state == 'shut' else 1
                self.take(message)
            except EOFError:
                return 1
            except Problem as problem:
                self.messages.fail(None, problem)
            # what is asked next is waited for, so that many changes are made known at once
            if self.state == 'open' and not self.messages.is_ready():
                self.guarded('the faults', lambda: self.workspace.settle(self.messages.is_ready))
                gc.freeze()

    def guarded(self, what, action):
        """Does what no message asked for. A fault of this program must not end it."""
        try:
            action()
        except BrokenPipeError:
            raise
        except Exception as error:
            self.messages.log_fault(what, error)

    def take(self, message):
        """Obeys a message. A request is answered, and a notification never is."""
        number, method = part_or_none(message, 'id'), part_or_none(message, 'method')
        if part_or_none(message, 'jsonrpc') != '2.0' or not is_number(number):
            raise Problem(INVALID_REQUEST, 'no message of JSON-RPC 2.0')
        if method is None and ('result' in message or 'error' in message):
            return                      # the client's answer to a request of the server
        try:
            result = self.result(method, message.get('params'), 'id' in message, number)
            if 'id' in message:
                self.messages.write(id=number, result=result)
        except Problem as problem:
            if 'id' in message:
                self.messages.fail(number, problem)
            else:
                self.messages.log('%s: %s' % (method, problem.text))

    def give_up(self, number):
        """Where the client does not want the answer to a request any more, there is none."""
        if self.messages.is_cancelled(number):
            raise Problem(CANCELLED, 'the client has cancelled this')

    def result(self, method, params, is_request, number):
        """What a message is answered by."""
        if not isinstance(method, str):
            raise Problem(INVALID_REQUEST, 'no method')
        found = self.requests.get(method) if is_request else self.notices.get(method)
        if not is_request and (not found or self.state != 'open'):
            return None                 # these are ignored
        if self.state == 'new' and method != 'initialize':
            raise Problem(NOT_INITIALIZED, 'no initialize yet')
        if self.state == 'shut' or self.state == 'open' and method == 'initialize':
            raise Problem(INVALID_REQUEST, '%s at the wrong time' % method)
        try:
            if is_request and self.state == 'open' and method != 'shutdown':
                self.give_up(number)
                if self.workspace.has_other_roots():
                    self.workspace.look_again()
                self.workspace.settle()
                self.give_up(number)
            if not found:
                raise Problem(NO_METHOD, 'no method %s' % method)
            return found({} if params is None else params)
        except (Problem, BrokenPipeError):
            raise
        except Exception as error:      # a fault of this program must not end it
            self.messages.log_fault(method, error)
            raise Problem(INTERNAL, '%s: %r' % (method, error)) from None

    def ask(self, method, **params):
        """Asks the client, whose answer is not waited for."""
        self.asked += 1
        self.messages.write(id='retangle-%d' % self.asked, method=method, params=params)

    def has(self, *keys):
        """What the client says that it can do."""
        return part_or_none(self.client, *keys)

    # ------------------------------------------------------------------ beginning and end

    def initialize(self, params):
        if not isinstance(params, dict):
            raise Problem(INVALID_PARAMS, 'no parameters')
        self.client = part_or_none(params, 'capabilities') or {}
        self.settings = Settings(params.get('initializationOptions'))
        self.workspace.compiler.command = self.settings.compiler
        self.state = 'open'
        self.begun = params
        self.workspace.use_folder(said_folder(params.get('initializationOptions'), params))
        self.workspace.has_progress = self.has('window', 'workDoneProgress') is True
        # a client that is sent diagnostics does not ask for them
        is_pulled = self.has('textDocument', 'diagnostic') is not None and (
            self.has('textDocument', 'publishDiagnostics') is None)
        self.workspace.is_pulled = is_pulled
        return {'capabilities': dict(CAPABILITIES, **(
                    {'diagnosticProvider': PULLED} if is_pulled else {})),
                'serverInfo': {'name': 'retangle-lsp', 'version': self.version}}

    def initialized(self, params):
        for why in self.settings.wrong:
            self.workspace.say(why)
        if self.has('workspace', 'diagnostics', 'refreshSupport') is True:
            self.workspace.ask_again = lambda: self.ask('workspace/diagnostic/refresh')
        if self.has('workspace', 'didChangeWatchedFiles', 'dynamicRegistration') is True:
            watchers = [{'globPattern': pattern} for pattern in WATCHED]
            self.ask('client/registerCapability', registrations=[{
                'id': 'watch', 'method': 'workspace/didChangeWatchedFiles',
                'registerOptions': {'watchers': watchers}}])

    def did_change_configuration(self, params):
        settings = part(params, 'settings')
        if any(part_or_none(settings, key) is not None for key in ('retangle', 'folder')):
            self.workspace.use_folder(said_folder(settings, self.begun))

    def shutdown(self, params):
        self.end()
        self.state = 'shut'

    def end(self):
        self.workspace.end()
        if self.copies:
            self.copies.cleanup()
        self.copies = None

    # ------------------------------------------------------------------ documents

    def did_open(self, params):
        uri = part(params, 'textDocument', 'uri', kind=str)
        text = part(params, 'textDocument', 'text', kind=str)
        self.workspace.open(uri, version_in(params), text)

    def document(self, params):
        """The URI and the open document of a message; None where it is no file here."""
        uri = part(params, 'textDocument', 'uri', kind=str)
        if uri not in self.workspace.documents:
            raise Problem(INVALID_PARAMS, '%s is not open' % uri)
        return uri, self.workspace.documents[uri]

    def did_change(self, params):
        made = [change_in(one) for one in part(params, 'contentChanges', kind=list)]
        uri = part(params, 'textDocument', 'uri', kind=str)
        if uri not in self.workspace.documents:         # saved under another name
            self.workspace.open_from_disk(uri)
        uri, document = self.document(params)
        if document:
            self.workspace.change(document, made, version_in(params))

    def did_save(self, params):
        uri = part(params, 'textDocument', 'uri', kind=str)
        if uri not in self.workspace.documents:
            self.workspace.open_from_disk(uri)
        uri, document = self.document(params)
        self.workspace.save(document)

    def did_close(self, params):
        self.workspace.close(self.document(params)[0])

    # ------------------------------------------------------------------ questions

    def path(self, params):
        """The path of a file, without links, as webs have it."""
        path = path_of(part(params, 'textDocument', 'uri', kind=str))
        if path is None:
            raise Problem(INVALID_PARAMS, 'no URI of a file')
        return self.workspace.real(path)

    def place(self, params):
        return self.path(params), place_in(params, 'position')

    def completion(self, params):
        return requests.completion(self.workspace, *self.place(params))

    def hover(self, params):
        formats = self.has('textDocument', 'hover', 'contentFormat')
        has_markdown = isinstance(formats, list) and 'markdown' in formats
        return requests.hover(self.workspace, *self.place(params), has_markdown)

    def definition(self, params):
        path, place = self.place(params)
        return (texts.included_at(self.workspace, path, place[0])
                or requests.located(self.workspace, path, place, {DEFINITION}))

    def references(self, params):
        roles = {USE, MENTION}
        if part_or_none(params, 'context', 'includeDeclaration'):
            roles.add(DEFINITION)
        return requests.located(self.workspace, *self.place(params), roles)

    def highlight(self, params):
        return requests.highlights(self.workspace, *self.place(params))

    def document_symbol(self, params):
        keys = 'textDocument', 'documentSymbol', 'hierarchicalDocumentSymbolSupport'
        return requests.document_symbols(self.workspace, self.path(params),
                                         part(params, 'textDocument', 'uri'), self.has(*keys))

    def folding_range(self, params):
        return requests.folding_ranges(self.workspace, self.path(params))

    def document_link(self, params):
        return texts.links(self.workspace, self.path(params))

    def semantic_tokens(self, params):
        return self.tokens.full(self.workspace, self.path(params))

    def semantic_tokens_delta(self, params):
        return self.tokens.delta(self.workspace, self.path(params),
                                 part(params, 'previousResultId', kind=str))

    def semantic_tokens_range(self, params):
        start, end = self.rows(params)
        return {'data': self.tokens.data(self.workspace, self.path(params), start, end + 1)}

    def inlay_hint(self, params):
        return texts.hints(self.workspace, self.path(params), *self.rows(params))

    @staticmethod
    def rows(params):
        return [place_in(params, 'range', key)[0] for key in ('start', 'end')]

    def selection_range(self, params):
        path, places = self.path(params), part(params, 'positions', kind=list)
        return [texts.selection(self.workspace, path, place_in({'place': place}, 'place'))
                for place in places]

    def diagnostic(self, params):
        self.path(params)
        these = self.workspace.published.get(params['textDocument']['uri'], [])
        return {'kind': 'full', 'items': these}

    def workspace_diagnostic(self, params):
        versions = {uri: document.version
                    for uri, document in self.workspace.documents.items() if document}
        return {'items': [{'uri': uri, 'version': versions.get(uri), 'kind': 'full', 'items': these}
                          for uri, these in self.workspace.published.items()]}

    def workspace_symbol(self, params):
        return requests.workspace_symbols(self.workspace, part(params, 'query', kind=str))

    def prepare_rename(self, params):
        place = self.place(params)
        return (fullnames.prepare(self.workspace, *place)
                or renaming.prepare_rename(self.workspace, *place))

    def rename(self, params):
        new = part(params, 'newName', kind=str)
        place = self.place(params)
        return self.workspace_edit(fullnames.rename(self.workspace, *place, new)
                                   or renaming.rename(self.workspace, *place, new))

    def workspace_edit(self, edits):
        has_versions = self.has('workspace', 'workspaceEdit', 'documentChanges')
        return changes.workspace_edit(self.workspace, edits, has_versions)

    def code_action(self, params):
        start, end = (place_in(params, 'range', key) for key in ('start', 'end'))
        return [{'title': title, 'kind': 'quickfix' if mends else 'refactor.rewrite',
                 'edit': self.workspace_edit(edits)}
                for title, edits, mends in changes.actions(self.workspace, self.path(params),
                                                           start, end)]

    def execute_command(self, params):
        """Shows the C of a line of the web. The arguments are a URI and the line, from 0 on."""
        if part(params, 'command', kind=str) != SHOW_C:
            raise Problem(INVALID_PARAMS, 'no command %s' % params['command'])
        arguments = part(params, 'arguments', kind=list)
        if len(arguments) != 2:
            raise Problem(INVALID_PARAMS, 'the arguments are a URI and a line')
        given = {'textDocument': {'uri': arguments[0]}, 'line': arguments[1]}
        found = requests.place_of_c(self.workspace, self.path(given),
                                    part(given, 'line', kind=int))
        if not found:
            raise Problem(REQUEST_FAILED, 'no C is written from this file')
        output, row, text = found
        try:
            if self.copies is None:
                self.copies = tempfile.TemporaryDirectory(prefix='c-of-a-web-')
            path = requests.copy_of(self.copies.name, output, text)
        except (OSError, ValueError) as error:
            raise Problem(REQUEST_FAILED, 'no copy of %s can be written: %s' % (
                shown(output), getattr(error, 'strerror', error))) from None
        uri, place = uri_of(path), {'line': row, 'character': 0}
        if self.has('window', 'showDocument', 'support'):
            self.ask('window/showDocument', uri=uri, takeFocus=True,
                     selection={'start': place, 'end': place})
        return {'uri': uri, 'file': shown(path), 'output': shown(output), 'line': row}
