package jcompat.maven;

import java.io.ByteArrayOutputStream;
import java.io.File;
import java.io.IOException;
import java.io.PrintStream;
import java.nio.charset.StandardCharsets;
import java.nio.file.Files;
import java.nio.file.Path;
import java.util.List;

import jcompat.Check;
import jcompat.Host;
import jcompat.Request;
import jcompat.Stop;

import org.apache.maven.plugin.AbstractMojo;
import org.apache.maven.plugin.MojoExecutionException;
import org.apache.maven.plugin.MojoFailureException;
import org.apache.maven.project.MavenProject;
import org.eclipse.aether.RepositoryException;
import org.eclipse.aether.RepositorySystem;
import org.eclipse.aether.RepositorySystemSession;
import org.eclipse.aether.artifact.Artifact;
import org.eclipse.aether.repository.RemoteRepository;

/** What the goals share. Fields are set by Maven, as META-INF/maven/plugin.xml says. */
abstract class CompatMojo extends AbstractMojo {
    private static final String FIRST = "none";

    MavenProject project;
    private RepositorySystem system;
    private RepositorySystemSession session;
    private List<RemoteRepository> repositories;
    private boolean skip;
    /** Whether a build in which nothing can be compared fails. */
    private boolean required;
    /** The version to compare with, or none. */
    private String baseline;
    File output;
    File program;
    Repository repository;

    @Override
    public void execute() throws MojoExecutionException, MojoFailureException {
        if (skip || FIRST.equals(baseline) || project.getPackaging().equals("pom")) {
            getLog().info("jcompat: skipped");
            return;
        }
        String unable = Check.unable(program == null ? null : program.toPath());
        if (unable != null) {
            compareNothing(unable);
            return;
        }
        repository = new Repository(system, session, repositories);
        Artifact own = Repository.of(project.getArtifact());
        List<String> versions = baseline == null ? repository.below(own) : List.of(baseline);
        if (versions.isEmpty()) {
            compareNothing("the repositories have no release of " + own.getGroupId() + ":" + own.getArtifactId() + " below " + own.getVersion()
                    + ", so nothing is compared; a first release says jcompat.baseline=none");
            return;
        }
        try {
            Files.createDirectories(output.toPath());
            compare(own, versions);
        } catch (IOException failure) {
            throw new MojoExecutionException(failure.getMessage(), failure);
        }
    }

    /** Said as an error, since that is all that mvn -q shows. */
    private void compareNothing(String why) throws MojoFailureException {
        if (required) {
            throw new MojoFailureException("jcompat: " + why);
        }
        getLog().error("jcompat: " + why);
    }

    abstract void compare(Artifact own, List<String> versions) throws IOException, MojoExecutionException, MojoFailureException;

    /** The jar of this build, or else its classes. */
    Path built() throws MojoExecutionException {
        File file = project.getArtifact().getFile();
        file = file == null || !file.exists() ? new File(project.getBuild().getOutputDirectory()) : file;
        if (!file.exists()) {
            throw new MojoExecutionException("there is nothing to compare yet: run the goal behind package, as by mvn package jcompat:check");
        }
        return file.toPath();
    }

    /** The libraries of this build and then those of an earlier release. */
    void addLibraries(Request request, Artifact last) {
        for (org.apache.maven.artifact.Artifact each : project.getArtifacts()) {
            if (!"test".equals(each.getScope()) && each.getFile() != null && (each.getFile().isDirectory() || each.getFile().getName().endsWith(".jar"))) {
                request.with.add(each.getFile().toPath());
            }
        }
        try {
            for (File each : repository.needed(last)) {
                if (each.getName().endsWith(".jar") && !request.with.contains(each.toPath())) {
                    request.with.add(each.toPath());
                }
            }
        } catch (RepositoryException failure) {
            getLog().warn("jcompat: not all that " + last + " needs can be had: " + failure.getMessage());
        }
    }

    /** Runs the check, and logs what it prints. */
    int run(Request request) throws IOException, MojoExecutionException {
        request.program = program == null ? null : program.toPath();
        ByteArrayOutputStream printed = new ByteArrayOutputStream();
        PrintStream out = new PrintStream(printed, false, StandardCharsets.UTF_8.name());
        Check check = new Check(request, new Host(out, getLog()::warn, getLog()::info));
        int status;
        try {
            status = check.run();
        } catch (Stop stop) {
            throw new MojoExecutionException("jcompat compared nothing (status " + stop.status + ")" + (stop.getMessage() == null ? "" : ": " + stop.getMessage()));
        }
        Files.write(output.toPath().resolve("printed.txt"), printed.toByteArray());
        if (check.document() != null) {
            Files.write(output.toPath().resolve("report.json"), check.document().getBytes(StandardCharsets.UTF_8));
        }
        for (String line : printed.toString(StandardCharsets.UTF_8.name()).split("\n")) {
            if (status == 0 || line.startsWith("    ")) {
                getLog().info(line);
            } else {
                getLog().error(line);
            }
        }
        return status;
    }
}
