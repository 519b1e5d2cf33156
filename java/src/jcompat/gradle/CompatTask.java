package jcompat.gradle;

import java.io.ByteArrayOutputStream;
import java.io.File;
import java.io.IOException;
import java.io.PrintStream;
import java.nio.charset.StandardCharsets;
import java.nio.file.Files;
import java.util.ArrayList;
import java.util.Arrays;
import java.util.List;

import jcompat.Check;
import jcompat.Host;
import jcompat.Request;
import jcompat.Status;
import jcompat.Stop;

import org.gradle.api.DefaultTask;
import org.gradle.api.GradleException;
import org.gradle.api.file.FileCollection;
import org.gradle.api.tasks.CacheableTask;
import org.gradle.api.tasks.Classpath;
import org.gradle.api.tasks.Input;
import org.gradle.api.tasks.InputFiles;
import org.gradle.api.tasks.Optional;
import org.gradle.api.tasks.OutputDirectory;
import org.gradle.api.tasks.PathSensitive;
import org.gradle.api.tasks.PathSensitivity;
import org.gradle.api.tasks.TaskAction;

/** Compares the last release with what is built. It knows files and texts alone, and nothing of the project, while it runs. */
@CacheableTask
public class CompatTask extends DefaultTask {
    private FileCollection last;
    private FileCollection built;
    private FileCollection with;
    private FileCollection accepted;
    private File program;
    private File output;
    private String gate;
    private String own;
    private boolean whole;
    private boolean strict;
    private boolean due;
    private boolean required;
    private int java;

    @Classpath
    public FileCollection getLast() {
        return last;
    }

    public void setLast(FileCollection last) {
        this.last = last;
    }

    @Classpath
    public FileCollection getBuilt() {
        return built;
    }

    public void setBuilt(FileCollection built) {
        this.built = built;
    }

    @Classpath
    public FileCollection getWith() {
        return with;
    }

    public void setWith(FileCollection with) {
        this.with = with;
    }

    /** None, or the one file of accepted breaks. */
    @InputFiles
    @PathSensitive(PathSensitivity.NONE)
    public FileCollection getAccepted() {
        return accepted;
    }

    public void setAccepted(FileCollection accepted) {
        this.accepted = accepted;
    }

    /** The program decides by its version, which the plugin's own version stands for. */
    @Input
    @Optional
    public String getProgramName() {
        return program == null ? null : program.getPath() + " " + program.lastModified();
    }

    public void setProgram(File program) {
        this.program = program;
    }

    /** The Java whose classes are the platform. */
    @Input
    public String getJavaVersion() {
        return System.getProperty("java.runtime.version");
    }

    @OutputDirectory
    public File getOutput() {
        return output;
    }

    public void setOutput(File output) {
        this.output = output;
    }

    @Input
    public String getGate() {
        return gate;
    }

    public void setGate(String gate) {
        this.gate = gate;
    }

    /** As <code>shapes 1.1</code>. */
    @Input
    public String getOwn() {
        return own;
    }

    public void setOwn(String own) {
        this.own = own;
    }

    @Input
    public boolean isWhole() {
        return whole;
    }

    public void setWhole(boolean whole) {
        this.whole = whole;
    }

    @Input
    public boolean isStrict() {
        return strict;
    }

    public void setStrict(boolean strict) {
        this.strict = strict;
    }

    @Input
    public boolean isDue() {
        return due;
    }

    public void setDue(boolean due) {
        this.due = due;
    }

    @Input
    public boolean isRequired() {
        return required;
    }

    public void setRequired(boolean required) {
        this.required = required;
    }

    @Input
    public int getJava() {
        return java;
    }

    public void setJava(int java) {
        this.java = java;
    }

    /** Said as an error, since that is all that gradle -q shows. */
    private void compareNothing(String why) {
        if (required) {
            throw new GradleException("jcompat: " + why);
        }
        getLogger().error("jcompat: {}", why);
    }

    @TaskAction
    public void compare() throws IOException {
        String unable = Check.unable(program == null ? null : program.toPath());
        if (unable != null) {
            compareNothing(unable);
            return;
        }
        List<File> before = new ArrayList<>(last.getFiles());
        if (before.isEmpty()) {
            compareNothing("the repositories have no release below " + own + ", so nothing is compared; a first release says baseline = 'none'");
            return;
        }
        Request request = new Request();
        request.releases.add(before.get(0).toPath());
        request.releases.add(built.getSingleFile().toPath());
        for (File each : with.getFiles()) {
            if (each.exists()) {
                request.with.add(each.toPath());
            }
        }
        for (File each : accepted.getFiles()) {
            request.accepted = each.isFile() ? each.toPath() : null;
        }
        request.report = output.toPath().resolve("report.txt");
        request.page = output.toPath().resolve("page.html");
        request.title = before.get(0).getName() + " to " + own;
        request.whole = whole;
        request.strict = strict;
        request.due = due;
        request.java = java;
        request.explain = Request.Explain.ALL;
        request.program = program == null ? null : program.toPath();
        request.options.addAll(Arrays.asList("--gate", gate));
        ByteArrayOutputStream printed = new ByteArrayOutputStream();
        Check check = new Check(request, new Host(new PrintStream(printed, false, StandardCharsets.UTF_8.name()), getLogger()::warn, getLogger()::lifecycle));
        int status;
        try {
            status = check.run();
        } catch (Stop stop) {
            throw new GradleException("jcompat compared nothing (status " + stop.status + ")" + (stop.getMessage() == null ? "" : ": " + stop.getMessage()));
        }
        Files.write(output.toPath().resolve("printed.txt"), printed.toByteArray());
        Files.write(output.toPath().resolve("report.json"), check.document().getBytes(StandardCharsets.UTF_8));
        if (status == 0) {
            getLogger().lifecycle("jcompat: {}: {}", request.title, check.summary());
            check.due().forEach(line -> getLogger().lifecycle("jcompat: {}: {}", request.title, line.trim()));
            return;
        }
        getLogger().error(printed.toString(StandardCharsets.UTF_8.name()));
        throw new GradleException("jcompat: " + request.title + ": " + (status == Status.NOT_WHOLE ? "not all classes were compared"
                : status == Status.NEEDS_JAVA ? "it needs a newer Java than " + java : status == Status.NOT_STRICT ? "there are warnings, dropped interfaces or lines on calls" : "clients break, or what else the gate " + gate + " asks")
                + "; " + request.page + " tells more");
    }
}
