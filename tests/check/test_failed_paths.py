"""Which path a message names when a call of the system fails, and what comes first when two things are wrong."""
from failures import FailureTest
from helpers import DEPENDENCIES_PROGRAM, HI, PROGRAM, TRACE_PROGRAM, ProgramTest
from vembrusk.assembler import assemble


class CallsTest(FailureTest):
    """Each call of one kind fails in turn."""

    library = 'fail'

    def expect_messages(self, calls: str, *messages: str, disks: bool = False, unsynced: tuple[str, ...] = ()) -> None:
        """Expects one of these messages for each failing call of the kinds of these letters, and each message at some call; or, of a run over
        disks, that all is done and one of these folders is not synced."""
        words, stop, before, _ = self.disk_words() if disks else (self.drive_words()[0], '', {}, {})
        ends = [f'cpmrun: {message}\n' for message in messages] + [f'{stop}not synced: {folder}\n' for folder in unsynced]
        self.environment = {'FAIL_CALLS': calls}
        told = set()
        for at in range(1, 1001):
            self.put_files(before)
            done = self.run_with_failure(at, self.program, *words)
            self.take_files()
            if not self.mark.exists():
                break
            with self.subTest(calls=calls, at=at):
                self.assertEqual(done.returncode, 1)
                self.assertIn(done.stderr.decode(), ends)
            told.add(done.stderr.decode())
        self.assertEqual(len(told), len(ends))

    def test_the_state_of_a_file_names_the_file(self) -> None:
        """Of the program, of a folder that is written, of a host file, and of what is at the path of a file that is written, or has its
        temporary name."""
        folders = [self.work / 'written' / drive for drive in 'abcd']
        self.host()
        self.expect_messages('s', *(f'cannot read {path}' for path in (self.work / 'drives.com', *folders, self.work / 'host/x')),
                             *(f'cannot write {folder}/X' for folder in folders))

    def test_the_state_of_a_file_on_a_disk_names_the_file(self) -> None:
        written = self.work / 'written'
        self.expect_messages('s', f'cannot read {self.work}/calls.com',
                             *(f'cannot read {written}/{name}' for name in ('a', 'b', 'd', 'a/Keep', 'a/ann', 'a/note.txt', 'a/old', 'd/X')),
                             *(f'cannot write {written}/{name}' for name in ('b/NEW', 'a/ben', 'd/Y', 'a/note.txt', 'a/ann', 'a/old', 'd/X')),
                             disks=True)

    def test_the_entries_of_a_folder_name_the_folder(self) -> None:
        self.host()
        self.expect_messages('d', f'cannot read {self.work}/host')

    def test_a_rename_names_the_file_that_is_written_and_where_it_is(self) -> None:
        self.host()
        self.expect_messages('n', *(f'cannot write {self.work}/written/{drive}/X: its contents are in {self.work}/written/{drive}/.X.new'
                                    for drive in 'abcd'))

    def test_a_sync_names_the_file_that_is_written_or_the_disk(self) -> None:
        written = self.work / 'written'
        self.expect_messages('y', *(f'cannot write {written}/{name}' for name in ('b/NEW', 'a/ben', 'd/Y', 'a/note.txt')),
                             disks=True, unsynced=(f'{written}/b', f'{written}/a', f'{written}/d'))

    def test_a_write_names_the_file_that_is_written(self) -> None:
        self.host()
        self.expect_messages('w', *(f'cannot write {self.work}/written/{drive}/X' for drive in 'abcd'))

    def test_an_open_names_what_is_opened(self) -> None:
        self.host()
        self.expect_messages('o', f'cannot read {self.work}/drives.com', f'cannot read {self.work}/host', f'cannot read {self.work}/host/x',
                             *(f'cannot write {self.work}/written/{drive}/X' for drive in 'abcd'))

    def test_a_removal_names_the_file_that_stays(self) -> None:
        words, _, before, _ = self.disk_words()
        self.environment = {'FAIL_CALLS': 'u'}
        ends = []
        for at in range(1, 4):
            self.put_files(before)
            ends.append(self.run_with_failure(at, self.program, *words).stderr.decode())
            self.assertTrue(self.mark.exists())
            self.take_files()
        self.assertEqual(ends, [f'cpmrun: cannot write {self.work}/written/{name}\n' for name in ('a/ann', 'a/old', 'd/X')])


class OrderTest(ProgramTest):

    def test_a_path_that_a_rule_cannot_have_comes_before_a_program_that_is_missing(self) -> None:
        for words in ['none.com', '--make', 'a\nb'], ['none\n.com', '--make', 'a'], ['none.com', '--make', 'a', '--files', 'no\nne']:
            with self.subTest(words=words):
                done = self.run_command(DEPENDENCIES_PROGRAM, *words)
                self.assertEqual((done.returncode, done.stdout), (1, b''))
                self.assertRegex(done.stderr, b'^cpmdeps: a rule for make cannot have ')

    def test_a_program_that_is_missing_comes_before_the_script_and_that_before_a_folder(self) -> None:
        for message, words in [
            ('none.com', ['none.com', '--files', 'none', '--console', 'none.txt']),
            ('none.txt', [HI, '--files', 'none', '--files-b', 'other', '--console', 'none.txt']),
            ('none.txt', [HI, '--disk', 'none', '--console', 'none.txt']),
            ('none', [HI, '--files', 'none', '--files-b', 'other', '--typed', 'x']),
            ('none', [HI, '--disk', 'none', '--files-b', 'other']),
        ]:
            for program in PROGRAM, DEPENDENCIES_PROGRAM, TRACE_PROGRAM:
                self.expect_command(1, '', f'{program.name}: cannot read {message}\n', program, *words)

    def test_a_disk_that_cannot_be_locked_comes_before_a_folder(self) -> None:
        self.expect(1, '', 'cpmrun: cannot read none\n', HI, '--files', 'other', '--disk-b', 'none')


class EdgesTest(ProgramTest):

    def test_a_deletion_of_513_files(self) -> None:
        """A folder has 512 files, and the program makes one more and deletes them all. The file that it made is not reported as gone."""
        program = self.put('delete.com', assemble(['MVI C,22; LXI D,5CH; CALL 5; MVI C,19; LXI D,all; CALL 5; RET', 'all: DB 0,"???????????"; DS 24']))
        (self.work / 'full').mkdir()
        names = [f'F{number:03}' for number in range(512)]
        for name in names:
            self.put(f'full/{name}', 'one')
        gone = ''.join(f'gone {name}\n' for name in names)
        self.expect(0, '', f'stop WarmBoot\n{gone}', program, 'new', '--files', self.work / 'full')

    def test_stax_to_a_cell_that_is_ready_near_the_top_of_memory(self) -> None:
        """Stores two bytes at FDEFH, one after the other, and prints the cell."""
        program = self.put('stax.com', assemble(['LXI D,0FDEFH; MVI A,41H; STAX D; INR A; STAX D; LDAX D; MOV E,A; MVI C,2; CALL 5; RET']))
        self.expect(0, 'B', 'stop WarmBoot\n', program)
